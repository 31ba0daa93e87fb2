//! One file with its growth record, and the calls on it.

use crate::{Buffers, Call, Implementation, Kind, Outcome, Parameters, Record};

#[derive(Clone)]
pub struct Session {
    pub run: Implementation,
    pub parameters: Parameters,
    pub record: Record,
    pub lent: Buffers,
    /// Whom the calls are for; the institute unless it is set.
    pub caller: u8,
}

impl Session {
    /// An empty file under document 01's multiplier; the parameters in the order b, N, n0, s, k, A, M.
    pub fn new(run: Implementation, parameters: [u32; 7]) -> Session {
        Session::with(run, Parameters::new(parameters))
    }

    /// An empty file.
    pub fn with(run: Implementation, parameters: Parameters) -> Session {
        let lent = Buffers::zeros(&parameters);
        let mut session = Session { run, parameters, record: Record::default(), lent, caller: 0 };
        assert_eq!(session.call(Kind::Make, 0, 0, 0).refusal, 0, "making {parameters:?}");
        session
    }

    pub fn call(&mut self, kind: Kind, number: u32, ra: u32, dec: i32) -> Outcome {
        let Session { parameters, record, caller, .. } = *self;
        self.run(Call { caller, number, ra, dec, ..Call::new(kind, parameters, record) })
    }

    fn run(&mut self, call: Call) -> Outcome {
        let outcome = (self.run.run)(&call, &mut self.lent);
        self.record = call.record_after(&outcome);
        outcome
    }

    pub fn enter(&mut self, number: u32) -> Outcome {
        self.call(Kind::Enter, number, 1, 0)
    }

    pub fn cascade(&mut self, number: u32) -> Outcome {
        self.call(Kind::Cascade, number, 1, 0)
    }

    pub fn look_up(&mut self, number: u32) -> Outcome {
        self.call(Kind::LookUp, number, 0, 0)
    }

    pub fn remove(&mut self, number: u32) -> Outcome {
        self.call(Kind::Remove, number, 0, 0)
    }

    pub fn grow(&mut self) -> Outcome {
        self.call(Kind::Grow, 0, 0, 0)
    }

    pub fn shrink(&mut self) -> Outcome {
        self.call(Kind::Shrink, 0, 0, 0)
    }

    pub fn open_growth(&mut self) -> Outcome {
        self.call(Kind::Open, 0, 0, 0)
    }

    pub fn step_growth(&mut self) -> Outcome {
        self.call(Kind::Step, 0, 0, 0)
    }

    /// A stopped form, with the position that the entries have.
    pub fn stopped(&mut self, kind: Kind, number: u32, stores: u32) -> Outcome {
        let Session { parameters, record, caller, .. } = *self;
        self.run(Call { caller, number, ra: 1, stores, ..Call::new(kind, parameters, record) })
    }

    pub fn mend(&mut self) -> Outcome {
        self.call(Kind::Mend, 0, 0, 0)
    }

    pub fn due(&mut self) -> Outcome {
        self.call(Kind::Due, 0, 0, 0)
    }

    pub fn check(&mut self) -> Outcome {
        self.call(Kind::Check, 0, 0, 0)
    }

    pub fn home(&self, number: u32) -> u64 {
        crate::hashing::home(&self.parameters, &self.record.growth, number.into())
    }
}
