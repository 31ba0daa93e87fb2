//! The documents' points, against the library.

model::point_tests!(interface::LIBRARY);

#[test]
fn generator() {
    model::points::generator(interface::x);
}

#[test]
fn ranks() {
    model::points::ranks(interface::rank);
}
