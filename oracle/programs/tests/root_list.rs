//! The root list as document 01 has it: ascending, equal roots each kept, in order of insertion.

use answers::Step1;
use step1_exact::roots::PositiveSet;
use step1_exact::Choice;

fn read(inserted: &[f64]) -> Vec<u64> {
    let mut list = PositiveSet::<4>::new();
    for &value in inserted {
        list.insert(value);
    }
    list.into_iter().map(f64::to_bits).collect()
}

fn bits(numbers: &[f64]) -> Vec<u64> {
    numbers.iter().map(|number| number.to_bits()).collect()
}

#[test]
fn values_are_read_in_ascending_order() {
    assert_eq!(
        read(&[3.0, 1.0, f64::INFINITY, 2.0]),
        bits(&[1.0, 2.0, 3.0, f64::INFINITY])
    );
}

#[test]
fn equal_values_stay_in_order_of_insertion() {
    assert_eq!(read(&[1.0, 0.0, -0.0, 1.0]), bits(&[0.0, -0.0, 1.0, 1.0]));
    assert_eq!(read(&[-0.0, 0.0]), bits(&[-0.0, 0.0]));
}

#[test]
fn negative_numbers_and_nan_are_left_out() {
    assert_eq!(
        read(&[-5e-324, f64::NAN, f64::NEG_INFINITY, 7.0]),
        bits(&[7.0])
    );
}

#[test]
fn a_full_list_stays_as_it_is() {
    assert_eq!(
        read(&[5.0, 4.0, 3.0, 2.0, 1.0]),
        bits(&[2.0, 3.0, 4.0, 5.0])
    );
}

#[test]
fn quartics_of_document_01() {
    assert_eq!(
        Choice::quartic([-2.0, 1.0, 0.0, 0.0]).as_slice(),
        [0.0, 1.0]
    );
    assert_eq!(
        Choice::quartic([0.0, 0.0, -8.0, 0.0]).as_slice(),
        [0.0, 2.0]
    );
    // x⁴ has the double root 0 twice: once for c and d, once for -a / 2.
    assert_eq!(
        bits(Choice::quartic([0.0; 4]).as_slice()),
        bits(&[0.0, -0.0])
    );
}
