//! Document 02, change request 2: "A round's questions in one call".
use crate::Oracle;

impl Oracle {
    /// "a list of question records (subject, mode, object, instant) and a byte list for the replies". What the bytes
    /// are after the call, or the refusal: "A byte list shorter than the questions gets 13 with nothing written".
    pub fn round(&self, questions: &[[u32; 4]], bytes: &[u8]) -> Result<Vec<u8>, u32> {
        if bytes.len() < questions.len() {
            return Err(13);
        }
        // "Bytes past the last question's are untouched"
        let mut after = bytes.to_vec();
        for (byte, &[subject, mode, object, instant]) in after.iter_mut().zip(questions) {
            // "0 no, 1 yes, 16 plus the number for a refused question"
            *byte = match self.may(subject, mode, object, instant) {
                Ok(yes) => u8::from(yes),
                Err(row) => 16 + row as u8,
            };
        }
        Ok(after)
    }
}
