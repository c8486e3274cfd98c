//! Replies of one string that is not ASCII.
use super::short::{Stream, ALIKE, QUERY_DERIVER};
use super::{figures, What};
use crate::rows::Row;
use lintelow::wire::write_string;

/// Words, apart by bars, of which a text is made at random.
const KINDS: [(&str, &str); 8] = [
    ("two bytes a character (Cyrillic)", "п|у|т|ь|к|х|р|а|н|и|л|щ|ю|я|Ж|Ё"),
    ("three bytes a character (Thai)", "ก|ข|ค|ง|จ|ช|ด|ต|ท|น|บ|ป|ม|ย|ร|ล"),
    ("three bytes a character (CJK)", "建|造|路|徑|套|件|信|息|本|機|構|築|倉|庫|字|符"),
    ("three bytes a character (Korean)", "빌|드|경|로|저|장|소|꾸|러|미|파|일|한|글|흐|힘"),
    ("four bytes a character (emoji)", "🙂|🚀|📦|🔧|🎉|🐍|🦀|🧪|🌍|🍀|🎲|💾|🔒|🧭|🪄|🥁"),
    ("mixed (English with accents)", "the |store |path |of |a |build |is |not |valid |café |naïve |façade |résumé |— |“quoted” |done 🙂 "),
    ("mixed (CJK with ASCII)", "建造|路徑|套件|信息|，|。|構築| nix-2.8 | x86_64 |倉庫|字符|(1.34) |：| 16 MiB |本機|, "),
    ("mixed (every kind, at random)", "a|/|é|Ж|\u{800}|ก|\u{1100}|中|한|\u{d7ff}|\u{e000}|！|\u{10000}|🙂|\u{e0101}|\u{10fffd}"),
];
/// About a KiB and a MiB, of whole characters of any length.
const SIZES: [(&str, usize, usize); 2] = [("1 KiB", 1_020, ALIKE), ("1 MiB", 1_048_572, 1)];

/// Numbers that look like random ones, always the same.
struct Dice(u64);

impl Dice {
    fn below(&mut self, bound: usize) -> usize {
        self.0 = self.0.wrapping_mul(6_364_136_223_846_793_005).wrapping_add(1_442_695_040_888_963_407);
        (self.0 >> 33) as usize % bound
    }
}

/// Exactly so many bytes. Where no whole word fits any more, full stops.
fn text(words: &[&str], size: usize, dice: &mut Dice) -> String {
    let mut text = String::with_capacity(size);
    loop {
        let word = words[dice.below(words.len())];
        if text.len() + word.len() > size {
            break;
        }
        text.push_str(word);
    }
    text.push_str(&".".repeat(size - text.len()));
    text
}

/// Replies of one string, each with another text.
fn stream(words: &str, size: usize, replies: usize) -> Stream {
    let (words, mut dice): (Vec<&str>, _) = (words.split('|').collect(), Dice(2_026));
    let mut bytes = Vec::new();
    (0..replies).for_each(|_| write_string(&mut bytes, &text(&words, size, &mut dice)));
    Stream { op: QUERY_DERIVER, bytes, calls: replies }
}

pub fn rows() -> Vec<Row<'static>> {
    let row = |(about, size, replies), (kind, words)| {
        let measure = move |effort| figures(&stream(words, size, replies).asked(What::ReadReply), effort);
        Row::new("text", format!("{kind}, {about}"), measure)
    };
    SIZES.into_iter().flat_map(|sized| KINDS.map(|kind| row(sized, kind))).collect()
}
