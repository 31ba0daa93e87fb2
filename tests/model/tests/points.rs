//! The documents' points about the calls, against the model.

model::point_tests!(model::MODEL);
