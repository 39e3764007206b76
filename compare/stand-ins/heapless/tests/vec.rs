//! The behaviour that heapless documents for `Vec`: "a fixed capacity Vec", `new` is empty, `extend_from_slice` clones and appends
//! all elements of a slice in order and answers an error where the capacity does not hold them, deref gives the elements stored,
//! two are equal where those are.
use heapless::Vec;

fn of(items: &[u8]) -> Vec<u8, 4> {
    let mut vec = Vec::new();
    vec.extend_from_slice(items).unwrap();
    vec
}

#[test]
fn a_new_one_is_empty() {
    let vec: Vec<u8, 4> = Vec::new();
    assert!(vec.is_empty());
}

#[test]
fn what_is_appended_stands_in_order_up_to_the_capacity() {
    let mut vec = of(&[1]);
    vec.extend_from_slice(&[2, 3]).unwrap();
    assert_eq!(*vec, [1, 2, 3]);
    vec.extend_from_slice(&[4]).unwrap();
    assert_eq!(*vec, [1, 2, 3, 4]);
    vec.extend_from_slice(&[]).unwrap();
    assert_eq!(*vec, [1, 2, 3, 4]);
}

#[test]
fn what_does_not_fit_is_an_error_and_appends_nothing() {
    let mut vec = of(&[1, 2, 3]);
    assert!(vec.extend_from_slice(&[4, 5]).is_err());
    assert_eq!(*vec, [1, 2, 3]);
    vec.extend_from_slice(&[6]).unwrap();
    assert_eq!(*vec, [1, 2, 3, 6]);
}

#[test]
fn equality_and_text_are_those_of_the_elements_stored() {
    let mut refused = of(&[1, 2]);
    assert!(refused.extend_from_slice(&[9, 9, 9]).is_err());
    assert_eq!(refused, of(&[1, 2]));
    assert_ne!(of(&[1, 2]), of(&[1, 2, 0]));
    assert_eq!(refused.clone(), refused);
    assert_eq!(format!("{refused:?}"), "[1, 2]");
}
