//! Each call of the shim, at its ends, and with allocations that fail.

use super::alloc::AllocError;
use super::{ArrayString, greatest, least, narrow, text, text_before};
use core::fmt::Write;
use std::format;

#[test]
fn the_lesser_and_the_greater_of_two() {
    for left in i8::MIN..=i8::MAX {
        for right in i8::MIN..=i8::MAX {
            assert_eq!(least!(left, right), left.min(right));
            assert_eq!(greatest!(left, right), left.max(right));
        }
    }
}

#[test]
fn numbers_of_64_bits_are_narrowed_and_no_others() {
    for bit in 0..127 {
        for sign in [1, -1] {
            for beside in -2..=2 {
                let number = sign * (1_i128 << bit) + beside;
                assert_eq!(narrow(number).ok(), i64::try_from(number).ok(), "{number}");
            }
        }
    }
    for number in [i128::MIN, i128::MIN + 1, i128::MAX - 1, i128::MAX] {
        assert!(narrow(number).is_err(), "{number}");
    }
}

#[test]
fn text_is_its_bytes() {
    for len in 0..70 {
        let letters =
            "aé€x0123456789abcdefghijklmnopqrstuvwxyzABCDEFGHIJKLMNOPQRSTUVWXYZ0123456789";
        if let Some(front) = letters.get(..len) {
            assert_eq!(text(front.as_bytes()), front);
        }
    }
}

#[test]
fn text_before_a_position_is_its_bytes() {
    let letters = "aé€x🕔0123456789abcdefghijklmnopqrstuvwxyz".repeat(4);
    for rest in [b'a', 0, 0x80, 0xff] {
        for len in (0..=128).filter(|len| letters.is_char_boundary(*len)) {
            let mut bytes = [rest; 128];
            bytes[..len].copy_from_slice(&letters.as_bytes()[..len]);
            assert_eq!(text_before(&bytes, len), &letters[..len]);
        }
    }
}

#[test]
#[should_panic(expected = "bytes that are not text")]
fn other_bytes_are_no_text() {
    text(b"\xff");
}

#[test]
fn strings_in_an_array_have_what_has_room_whole() {
    let mut text = ArrayString::<8>::new();
    assert_eq!(text.as_str(), "");
    assert!(text.try_push_str("abc").is_ok());
    assert!(text.try_push_str("abcdef").is_err());
    assert_eq!(text.as_str(), "abc");
    assert!(write!(text, "{}é", 12).is_ok());
    assert_eq!(text.as_str(), "abc12é");
    assert!(write!(text, "{}", 12).is_err());
    assert!(text.try_push_str("x").is_ok());
    assert!(text.try_push_str("").is_ok());
    assert!(text.try_push_str("y").is_err());
    assert_eq!(text.as_str(), "abc12éx");
    text.clear();
    assert_eq!(text.as_str(), "");
    assert!(text.try_push_str("12345678").is_ok());
    assert_eq!(text.as_str(), "12345678");
}

#[test]
fn an_allocation_that_failed_has_a_text() {
    assert_eq!(format!("{AllocError}"), "memory allocation failed");
}

/// Vectors, text and errors, which allocate.
#[cfg(feature = "alloc")]
mod of_alloc {
    use super::super::alloc::{AllocError, Allocator, Global};
    use super::super::{String, Vec, anyhow};
    use core::cell::Cell;
    use std::format;

    /// Counts the blocks that it gives, and of these the ones that it has not back.
    #[derive(Default)]
    struct Counting {
        given: Cell<u32>,
        held: Cell<i32>,
    }

    impl Allocator for Counting {
        fn gives(&self) -> bool {
            self.given.set(self.given.get() + 1);
            self.held.set(self.held.get() + 1);
            true
        }

        fn takes_back(&self) {
            self.held.set(self.held.get() - 1);
        }
    }

    /// Gives no block.
    #[derive(Clone, Copy)]
    struct Refusing;

    impl Allocator for Refusing {
        fn gives(&self) -> bool {
            false
        }
    }

    #[test]
    fn vectors_have_the_items_that_were_added() {
        let mut items = Vec::new(Global);
        assert!(items.is_empty());
        for item in 0..100_u32 {
            items.push(item).unwrap();
        }
        items.extend_from_slice(&[100, 101, 102]).unwrap();
        items.extend_from_slice(&[]).unwrap();
        items.reserve(1).unwrap();
        items.extend([103].into_iter()).unwrap();
        assert!(items.as_slice().iter().copied().eq(0..104));
        items[3] = 7;
        assert_eq!(items[3], 7);
        let copy = items.clone().unwrap();
        assert_eq!(copy.as_slice(), items.as_slice());
        assert_eq!(
            Vec::from_array(Global, [1, 2, 3]).unwrap().as_slice(),
            [1, 2, 3]
        );
        let texts = Vec::from_std(std::vec!["a", "b"]);
        assert_eq!(format!("{texts:?}"), r#"["a", "b"]"#);
        assert_eq!(texts.into_std(), ["a", "b"]);
    }

    #[test]
    fn vectors_are_equal_if_their_items_are() {
        let of = |items: &[u8]| Vec::from_std(items.to_vec());
        assert_eq!(of(b"ab"), of(b"ab"));
        assert_ne!(of(b"ab"), of(b"ac"));
        assert_ne!(of(b"ab"), of(b"a"));
        assert_eq!(of(b""), Vec::with_capacity(Global, 7).unwrap());
    }

    /// Room is made once, of the number that was asked for; growing one by one makes room for some more
    /// each time, and reserving exactly for no more.
    #[test]
    fn room_is_what_was_asked_for() {
        let filled = Vec::<u32>::with_capacity(Global, 10).unwrap();
        assert_eq!(filled.into_std().capacity(), 10);
        let mut items = Vec::from_array(Global, [1, 2, 3, 4, 5]).unwrap();
        items.reserve_exact(6).unwrap();
        assert_eq!(items.into_std().capacity(), 11);
        let mut items = Vec::from_array(Global, [1, 2, 3, 4, 5]).unwrap();
        items.reserve(6).unwrap();
        assert!((11..20).contains(&items.into_std().capacity()));
        let copy = Vec::from_array(Global, [1, 2, 3, 4, 5]).unwrap().clone();
        assert_eq!(copy.unwrap().into_std().capacity(), 5);

        let counting = Counting::default();
        let mut reserved = Vec::with_capacity(&counting, 1000).unwrap();
        let mut grown = Vec::new(&counting);
        assert_eq!((counting.given.get(), counting.held.get()), (1, 1));
        for item in 0..1000 {
            reserved.push(item).unwrap();
        }
        reserved.reserve(0).unwrap();
        reserved.reserve_exact(0).unwrap();
        assert_eq!(counting.given.get(), 1);
        for item in 0..1000 {
            grown.push(item).unwrap();
        }
        assert!((8..=11).contains(&counting.given.get()));
        assert_eq!(counting.held.get(), 2);
        drop((reserved, grown));
        assert_eq!(counting.held.get(), 0);
    }

    #[test]
    fn what_no_allocator_gives_is_an_error() {
        let mut items = Vec::new(Refusing);
        assert_eq!(items.reserve(0), Ok(()));
        assert_eq!(items.reserve_exact(0), Ok(()));
        assert_eq!(items.extend_from_slice(&[]), Ok(()));
        assert_eq!(items.push(1), Err(AllocError));
        assert_eq!(items.reserve(1), Err(AllocError));
        assert_eq!(items.reserve_exact(1), Err(AllocError));
        assert_eq!(items.extend_from_slice(&[1]), Err(AllocError));
        assert!(items.is_empty());
        assert_eq!(Vec::with_capacity(Refusing, 0), Ok(items));
        assert_eq!(Vec::<u8, _>::with_capacity(Refusing, 1), Err(AllocError));
        assert_eq!(Vec::from_array(Refusing, [1]), Err(AllocError));
        let mut text = String::with_capacity(Refusing, 0).unwrap();
        assert_eq!(text.push_str(""), Ok(()));
        assert_eq!(text.push_str("a"), Err(AllocError));
        assert_eq!(text.as_str(), "");
        assert!(String::with_capacity(Refusing, 1).is_err());
    }

    /// More than there can be, and more than the machine has.
    #[test]
    fn what_rust_does_not_give_is_an_error() {
        let sizes = [usize::MAX, isize::MAX as usize];
        // A machine of 32 bits may have the second.
        for &most in &sizes[..if usize::BITS > 32 { 2 } else { 1 }] {
            let mut bytes = Vec::<u8>::new(Global);
            assert_eq!(bytes.reserve(most), Err(AllocError));
            assert_eq!(bytes.reserve_exact(most), Err(AllocError));
            assert!(bytes.is_empty());
            assert_eq!(Vec::<u8>::with_capacity(Global, most), Err(AllocError));
            assert!(String::with_capacity(Global, most).is_err());
        }
    }

    #[test]
    fn strings_have_what_was_added() {
        let mut text = String::with_capacity(Global, 3).unwrap();
        assert_eq!(text.as_str(), "");
        text.push_str("aé").unwrap();
        text.push_str("").unwrap();
        text.push_str("€ and so on").unwrap();
        assert_eq!(text.as_str(), "aé€ and so on");
    }

    #[test]
    fn errors_have_their_texts() {
        let error = anyhow!("{} of {}", 1, "two");
        assert_eq!(format!("{error}"), "1 of two");
        let error = anyhow::Error::from(AllocError);
        assert_eq!(format!("{error}"), "memory allocation failed");
    }
}

/// A path is that of the file: no space around it is cut.
#[cfg(all(feature = "std", unix))]
#[test]
fn files_are_opened_at_their_paths() {
    use super::fs::File;
    use super::rt::{Files, Machine};
    use std::io::Read;
    use std::string::String;

    let folder = std::env::temp_dir().join(format!("tz-shim-{}", std::process::id()));
    std::fs::create_dir(&folder).unwrap();
    for name in ["a", " a", "a ", "a\n"] {
        std::fs::write(folder.join(name), name).unwrap();
    }
    for name in ["a", " a", "a ", "a\n"] {
        let path = folder.join(name).into_os_string().into_string().unwrap();
        let mut text = String::new();
        Machine
            .open(&path)
            .unwrap()
            .read_to_string(&mut text)
            .unwrap();
        let file = File::open(&Machine, &path);
        file.unwrap().read_to_string(&mut text).unwrap();
        assert_eq!(text, format!("{name}{name}"));
    }
    let missing = folder.join("b").into_os_string().into_string().unwrap();
    let error = Machine.open(&missing).err().unwrap();
    assert_eq!(error.raw_os_error(), Some(2));
    assert!(File::open(&Machine, &missing).is_err());
    std::fs::remove_dir_all(folder).unwrap();
}
