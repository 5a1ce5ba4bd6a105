//! The program's answer for the four files of a volume.

use crate::tape::Side;
use crate::volume::{rescue, verdict, Verdict};
use crate::Refusal;

pub const MAX_LIST_FILE: usize = 4_096;
pub const MAX_STORE_FILE: usize = 24_576;

/// What the program writes. A missing file is given as empty.
pub fn answer(
    index_list: &[u8],
    index_store: &[u8],
    data_list: &[u8],
    data_store: &[u8],
) -> String {
    let lists_bounded = index_list.len() <= MAX_LIST_FILE && data_list.len() <= MAX_LIST_FILE;
    let stores_bounded = index_store.len() <= MAX_STORE_FILE && data_store.len() <= MAX_STORE_FILE;
    if !lists_bounded || !stores_bounded {
        return refused(Refusal::TooLong);
    }
    let index = Side {
        list: index_list,
        store: index_store,
    };
    let data = Side {
        list: data_list,
        store: data_store,
    };
    let verdict_line = match verdict(index, data) {
        Err(refusal) => return refused(refusal),
        Ok(Verdict::Consistent) => "verdict consistent\n".to_string(),
        Ok(Verdict::Break { which, number }) => format!("verdict break {which} {number}\n"),
    };
    let cut_line = match rescue(index, data) {
        Err(Refusal::NoCut) => "cut none\n".to_string(),
        Err(refusal) => return refused(refusal),
        Ok(cut) => format!(
            "cut {} {} keep {} {} generation {}\n",
            cut.index_construct, cut.data_construct, cut.index_kept, cut.data_kept, cut.generation
        ),
    };
    verdict_line + &cut_line
}

fn refused(refusal: Refusal) -> String {
    format!("refused {}\n", refusal.number())
}
