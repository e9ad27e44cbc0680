//! What codes and causes mean.
use crate::calls;
use crate::told::NoMemory;

/// What a word names: the code of a refusal, by its number or its name, as `C3` or `Undefined`, or the cause of a failure, by the words
/// of its line, as `mismatch`, in any case of their letters. In whole lines, as the program's command `explain` prints them; `None` where
/// the word names nothing.
pub fn explain(word: &str) -> Result<Option<String>, NoMemory> {
    // SAFETY: each slice is as long as is said, and what is written to is the buffer alone.
    let told = written(|buffer, needed| unsafe {
        calls::cddlseq_explain_word(word.as_ptr(), word.len(), buffer.as_mut_ptr(), buffer.len(), needed)
    });
    match told {
        Ok(text) => Ok(Some(text)),
        Err(calls::BAD_WORD) => Ok(None),
        Err(_) => Err(NoMemory),
    }
}

/// The text that a call writes to a buffer, which is made larger where it has to be; or another status than that.
pub fn written(call: impl Fn(&mut [u8], &mut usize) -> u32) -> Result<String, u32> {
    let mut buffer = vec![0; 512];
    loop {
        let mut needed = 0;
        match call(&mut buffer, &mut needed) {
            calls::OK => {
                buffer.truncate(needed);
                return Ok(String::from_utf8(buffer).expect("what is told is text"));
            }
            calls::NO_ROOM => buffer.resize(needed, 0),
            status => return Err(status),
        }
    }
}

#[cfg(test)]
mod tests {
    use super::explain;

    #[test]
    fn words_are_explained() {
        let told = explain("text is not UTF-8").unwrap();
        assert_eq!(explain("TEXT is not utf-8").unwrap(), told);
        assert!(told.unwrap().starts_with("text is not UTF-8: "));
        assert!(explain("c3").unwrap().unwrap().starts_with("C3 Undefined: "));
    }

    #[test]
    fn other_words_are_not() {
        for word in ["", "C19", "C3\n", "C3\0"] {
            assert_eq!(explain(word).unwrap(), None, "{word}");
        }
    }
}
