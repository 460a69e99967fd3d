//! The proved program that runs vectors: its digests against published ones and `sha256sum`, its names against the
//! oracle. It is never waited for without end.
//!
//! Each line of its input is a message in hex, and it reads at most 65,536 bytes. For each it prints the digest, a blank, and
//! the name of the block with that digest as parent, the message's length as height and the message as contents; where the
//! name is refused, the refusal's number. A line that begins with `#` is printed as it is; any other that is no message gets
//! `-`.

#[path = "../../stories/tests/common/program.rs"]
mod program;
#[path = "../../oracle/tests/common/published.rs"]
mod published;
#[path = "../../oracle/tests/common/sha256sum.rs"]
mod sha256sum;

use std::ops::Range;
use std::time::Duration;

use oracle::{block_name, Height, Name, Refusal};
use program::Program;
use published::PUBLISHED;
use sha256sum::{hex, sha256sum};
use streams::Random;

/// The most bytes that the program reads.
const INPUT: usize = 65_536;

const VECTORS: Program = Program { name: "vectors", variable: "VECTORS_PROGRAM" };

// ---------------------------------------------------------------- messages and lines

/// Messages of these lengths with random bytes.
fn messages(lengths: impl Iterator<Item = usize>, random: &mut Random) -> Vec<Vec<u8>> {
    lengths.map(|length| (0..length).map(|_| random.number() as u8).collect()).collect()
}

/// The message as a line of input, each digit in lower or upper case.
fn in_hex(message: &[u8], random: &mut Random) -> Vec<u8> {
    let digit = |digit: u8| if random.chance(50) { digit.to_ascii_uppercase() } else { digit };
    hex(message).into_bytes().into_iter().map(digit).chain([b'\n']).collect()
}

/// The line that the program must print for a message of this digest.
fn answer(message: &[u8], digest: &str) -> String {
    let name = block_name(unhex(digest), Height(message.len() as u64), message);
    let name = name.map_or_else(|refusal: Refusal| refusal.number().to_string(), |name| hex(&name));
    format!("{digest} {name}\n")
}

/// Those for these messages, with digests by `sha256sum`.
fn answers(messages: &[Vec<u8>]) -> Vec<String> {
    messages.iter().zip(sha256sum(messages)).map(|(message, digest)| answer(message, &digest)).collect()
}

fn unhex(digest: &str) -> Name {
    std::array::from_fn(|at| u8::from_str_radix(&digest[2 * at..2 * at + 2], 16).expect("a digest in hex"))
}

/// The lines in parts, each with as many as the program reads.
fn parts(lines: &[Vec<u8>]) -> Vec<Range<usize>> {
    let mut parts = Vec::new();
    let (mut first, mut length) = (0, 0);
    for (at, line) in lines.iter().enumerate() {
        if length + line.len() > INPUT {
            parts.push(first..at);
            (first, length) = (at, 0);
        }
        length += line.len();
    }
    parts.push(first..lines.len());
    parts
}

/// Runs the program on these lines, part by part. Where it prints something else, only the first such line is shown.
fn compare(lines: &[Vec<u8>], answers: &[String]) {
    for part in parts(lines) {
        let (lines, answers) = (&lines[part.clone()], &answers[part]);
        let printed = VECTORS.printed(&lines.concat());
        let mut printed = printed.split_inclusive('\n');
        for (line, answer) in lines.iter().zip(answers) {
            assert_eq!(printed.next(), Some(&**answer), "for {}", String::from_utf8_lossy(line));
        }
        assert_eq!(printed.next(), None, "behind the last line");
    }
}

// ---------------------------------------------------------------- tests

/// Longer contents than 4,096 bytes have a digest, and 16 in the place of a name.
#[test]
fn messages_of_every_length() {
    let mut random = Random::new(1);
    let messages = messages(0..=4_200, &mut random);
    let lines: Vec<Vec<u8>> = messages.iter().map(|message| in_hex(message, &mut random)).collect();
    let answers = answers(&messages);
    assert!(answers[4_097].ends_with(" 16\n") && !answers[4_096].ends_with(" 16\n"));
    compare(&lines, &answers);
}

/// All but those of a million bytes.
#[test]
fn published_digests() {
    let mut random = Random::new(2);
    let short = PUBLISHED.iter().filter(|published| 2 * published.message().len() < INPUT);
    let pairs = short.map(|published| (published.message(), published.digest));
    let (lines, answers): (Vec<Vec<u8>>, Vec<String>) =
        pairs.map(|(message, digest)| (in_hex(&message, &mut random), answer(&message, digest))).unzip();
    assert_eq!(lines.len(), 13);
    compare(&lines, &answers);
}

/// What is printed for a line that is no message: a comment as it is.
fn no_answer(line: &[u8]) -> String {
    let comment = line.starts_with(b"#");
    if comment {
        String::from_utf8_lossy(line).into_owned()
    } else {
        "-\n".to_owned()
    }
}

/// Every byte that is no digit, in front, behind and inside, and many odd numbers of digits. The messages between them are
/// answered.
#[test]
fn lines_that_are_no_message() {
    let other = (0..=u8::MAX).filter(|byte| *byte != b'\n' && !byte.is_ascii_hexdigit());
    let places = [(0, 0), (1, 0), (0, 1), (1, 1), (2, 0), (0, 2), (1, 2), (63, 64)];
    let with_another = other
        .flat_map(|byte| places.map(|(before, after)| [vec![b'0'; before], vec![byte], vec![b'0'; after]].concat()));
    let odd = (1..300).step_by(2).chain([8_191, 8_193, 8_401]).map(|count| vec![b'A'; count]);
    let wrong: Vec<Vec<u8>> = with_another.chain(odd).map(|line| [&line[..], b"\n"].concat()).collect();
    let mut random = Random::new(3);
    let messages = messages((0..wrong.len()).map(|at| at % 130), &mut random);
    let right: Vec<Vec<u8>> = messages.iter().map(|message| in_hex(message, &mut random)).collect();
    let answers: Vec<String> =
        wrong.iter().zip(answers(&messages)).flat_map(|(wrong, answer)| [no_answer(wrong), answer]).collect();
    let lines: Vec<Vec<u8>> = wrong.into_iter().zip(right).flat_map(|(wrong, right)| [wrong, right]).collect();
    assert_eq!(answers.iter().filter(|answer| answer.starts_with('#')).count(), 3);
    compare(&lines, &answers);
}

/// A last line without a newline is a line, and behind the last newline there is none.
#[test]
fn the_last_line() {
    let [nothing, one, two] = answers(&[vec![], vec![0xAB], vec![0xAB, 0xCD]]).try_into().expect("three answers");
    let expected: [(&str, &[&str]); 10] = [
        ("", &[]),
        ("\n", &[&nothing]),
        ("\n\n", &[&nothing, &nothing]),
        ("ab", &[&one]),
        ("ab\n", &[&one]),
        ("ab\n\n", &[&one, &nothing]),
        ("\nab", &[&nothing, &one]),
        ("ab\nABcd", &[&one, &two]),
        ("ab\na", &[&one, "-\n"]),
        ("ab\nx", &[&one, "-\n"]),
    ];
    for (input, lines) in expected {
        assert_eq!(VECTORS.printed(input.as_bytes()), lines.concat(), "{input:?}");
        assert_eq!(VECTORS.printed_from_file(input.as_bytes()), lines.concat(), "{input:?} as a file");
    }
}

/// Inputs as long as can be read, and longer ones, of which the rest is left.
#[test]
fn the_longest_inputs() {
    let messages = [vec![], vec![0xAB; 5], vec![0x5A; INPUT / 2]];
    let [nothing, last, longest] = answers(&messages).try_into().expect("three answers");
    assert!(VECTORS.printed(&[b'\n'; INPUT]) == nothing.repeat(INPUT), "empty messages");
    let odd = vec![b'0'; INPUT - 11];
    for more in ["", "\n", "ab", "x\nab\n"] {
        let input = [&odd[..], b"\nabABababab", more.as_bytes()].concat();
        assert_eq!(VECTORS.printed(&input), format!("-\n{last}"), "and {more:?}");
        assert_eq!(VECTORS.printed_from_file(&input), format!("-\n{last}"), "and {more:?}, as a file");
    }
    let digits = b"5a".repeat(INPUT / 2);
    assert_eq!(VECTORS.printed(&digits), longest);
    assert_eq!(VECTORS.printed(&[&digits[..], b"5a\n"].concat()), longest);
    assert_eq!(VECTORS.printed(&[&digits[1..], b"\n"].concat()), "-\n");
}

/// However many bytes a read brings.
#[test]
fn portions() {
    let mut random = Random::new(4);
    let messages = messages([300, 0, 1, 55, 64, 4_096, 4_097].into_iter(), &mut random);
    let lines: Vec<Vec<u8>> = messages.iter().map(|message| in_hex(message, &mut random)).collect();
    let (input, expected) = (lines.concat(), answers(&messages).concat());
    assert_eq!(VECTORS.printed_from_file(&input), expected);
    for (length, pause) in [(1, 0), (7, 0), (499, 1), (4_096, 2)] {
        let portions: Vec<&[u8]> = input.chunks(length).collect();
        assert_eq!(
            VECTORS.printed_by_portions(&portions, Duration::from_millis(pause)),
            expected,
            "{length} bytes at once"
        );
    }
}
