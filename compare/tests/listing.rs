//! The listing that document 01 shows.
use compare::listing::listing;

#[test]
fn the_example() {
    let input = b"\x05\xC8\xEA\x01\x01\xFE\x07\xC8\xEA\x08\x02\x16\xA8\x0E\x00\x04";
    let whole = "0 read 01 5\n1 read 08 7\n2 refused 1\ncut 3\n";
    assert_eq!(listing(input), whole);
    assert_eq!(listing(&input[..14]), "0 read 01 5\n1 read 08 7\nend 2\n");
    assert_eq!(listing(&[]), "end 0\n");
}
