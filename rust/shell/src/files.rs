//! Calls whose answer goes to a file, or whose words come from one; and frozen tries as files.
use crate::edits::extend_by_lines;
use crate::key::Value;
use crate::own::own;
use crate::prelude::*;
use crate::shell::{Shell, inner_call, read_call};
use crate::table::Call;
use crate::words::Words;
use nifazombi::flat_texts::{ImageError, check, from_image, to_image};
use nifazombi::frozen_trie::FrozenTexts;
use nifazombi::rattle_std::fs;
use nifazombi::rattle_std::io::{BufReader, Read};
use nifazombi::rattle_std::rt::HostRuntime as Host;
use programs::whole_files::{FileFault, read_behind, replace};

/// What the name begins with of a file that is written beside the one whose place it takes.
const BESIDE: &str = ".trie_shell-";

/// What is answered where a key is no text.
const NO_TEXT: Stop = Stop::Said("not text");

/// How many bytes the head of an image and the first entry of its list take.
const HEAD: u64 = 40;

/// The name of a file that the next word writes.
fn next_path(answer: &mut Answer<'_>) -> Result<String, Stop> {
    Ok(answer.next_read()?.ok_or(FileFault::BadName)?)
}

impl Shell {
    /// Puts a file with what the call answers in place of the file, unless the call isn't made or
    /// fails. It is made where there is no memory for the file alone, which is told of.
    pub fn save(&mut self, answer: &mut Answer<'_>) -> Outcome {
        let path = next_path(answer)?;
        let call = read_call(answer)?;
        let start = answer.len();
        self.make_plain(call, answer.words, answer)?;
        if answer.is_refusal {
            return Ok(());
        }
        let saved = answer.take_back(start, |said| replace(Global, &Host, &path, said, BESIDE));
        saved.map_err(|fault| Stop::NoFile(fault.text()))?;
        answer.line("ok")
    }

    /// Makes the call with the words of the file behind it, or stores the file's lines.
    pub fn load(&mut self, answer: &mut Answer<'_>) -> Outcome {
        let (path, name) = (next_path(answer)?, answer.next_word());
        let mut bytes = Vec::new(Global);
        if name != "lines" {
            bytes.extend_from_slice(name.as_bytes())?;
            bytes.push(b' ')?;
        }
        read_behind(&Host, &path, &mut bytes)?;
        if name == "lines" {
            return match self.view_paths.last() {
                None => extend_by_lines(&mut self.current.trie, &bytes, answer),
                Some(_) => Err(Stop::Said(NOT_HERE)),
            };
        }
        for byte in bytes.iter_mut().filter(|byte| matches!(byte, b'\t' | b'\n')) {
            *byte = b' ';
        }
        let text = str::from_utf8(bytes.trim_ascii_end()).map_err(|_| Stop::Said("not UTF-8"))?;
        let (call, words) = inner_call(text)?;
        self.make_plain(call, words, answer)
    }

    /// Makes a call whose answer has no colours.
    fn make_plain(&mut self, call: &Call, words: Words<'_>, answer: &mut Answer<'_>) -> Outcome {
        answer.inner(words, |inner| {
            inner.is_coloured = false;
            self.make(call, inner)
        })
    }

    /// Puts a file of the frozen trie of the name, or its image, in place of the file.
    pub fn write(&mut self, answer: &mut Answer<'_>, is_image: bool) -> Outcome {
        let (name, path) = (answer.next_name()?, next_path(answer)?);
        let mut texts = FrozenTexts::new(Global);
        for (key, value) in self.frozen_of(name)?.iter().flat_map(|frozen| frozen.pairs()) {
            let Value::Text(text) = key.value() else {
                return Err(NO_TEXT);
            };
            texts.push(text.as_bytes(), *value).map_err(|_| Memory)?;
        }
        let mut bytes = Vec::new(Global);
        if is_image {
            bytes = to_image(Global, &texts, &[])?;
        } else {
            texts.write(&mut bytes)?;
        }
        replace(Global, &Host, &path, &bytes, BESIDE)?;
        answer.line("ok")
    }

    /// Makes the frozen trie of the name of a file, or of the image in it.
    pub fn read(&mut self, answer: &mut Answer<'_>, is_image: bool) -> Outcome {
        let (name, path) = (answer.next_name()?, next_path(answer)?);
        let slot = self.frozen_slot(name)?;
        if fs::metadata(&Host, &path)?.is_dir() {
            return Err(FileFault::Folder.into());
        }
        let mut input = BufReader::new(Global, fs::open(&Host, &path)?)?;
        let texts =
            if is_image { read_image(&mut input)? } else { FrozenTexts::read(Global, &mut input)? };
        let mut frozen = FrozenTrie::new(Global);
        for (bytes, value) in texts.iter() {
            let key = match self.kind {
                Kind::Text => own(|| Key::of_line(Kind::Text, bytes))?,
                _ => None,
            };
            frozen.push(key.ok_or(NO_TEXT)?, *value).map_err(|_| Memory)?;
        }
        frozen.finish()?;
        self.put_frozen(slot, frozen, answer)
    }
}

/// The pairs of the image that the reader brings up to its end. What begins as none is read no
/// further.
fn read_image<R: Read>(input: &mut R) -> Result<FrozenTexts<u64>, Stop> {
    let mut bytes = Vec::new(Global);
    input.by_ref().take(HEAD).read_to_end(&mut bytes)?;
    if let Err(error @ (ImageError::Mark | ImageError::Version)) = check(&bytes) {
        return Err(error.into());
    }
    input.read_to_end(&mut bytes)?;
    Ok(from_image(Global, &bytes)?)
}
