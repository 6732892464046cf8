//! Faults of an image of either kind: the library refuses the first one, and the tool says what it is about.

use std::fmt;

/// The rules that images of a kind are judged by.
pub trait Rules: Copy {
    /// What refuses an image.
    type Refusal: Refused;

    /// The library's verdict on an image.
    fn validate(self, image: &[u8]) -> Result<(), Self::Refusal>;

    /// All faults of an image that can be told apart, in the order of the rules; none where the library accepts it.
    fn faults(self, image: &[u8]) -> Vec<Fault<Self::Refusal>>;

    /// What else to try with an image that is refused.
    fn hint(self, _image: &[u8], _refusal: Self::Refusal) -> Option<String> {
        None
    }
}

/// A refusal of a library that judges images.
pub trait Refused: Copy + PartialEq + fmt::Display {
    /// The number of its reason, and the reason, whose name is shown.
    fn reason(&self) -> (u8, &dyn fmt::Debug);
}

/// A fault of an image: the refusal that it is, and what was found and due.
#[derive(Debug)]
pub struct Fault<R> {
    /// The refusal.
    pub refusal: R,
    /// What was found, where, and what was due.
    pub text: String,
}

impl<R: Refused> fmt::Display for Fault<R> {
    fn fmt(&self, f: &mut fmt::Formatter<'_>) -> fmt::Result {
        let (number, reason) = self.refusal.reason();
        write!(f, "{number} {reason:?}: {}", self.text)
    }
}

/// A refusal of an image as it is, with the hint that there may be.
pub fn of_image<R: Rules>(rules: R, image: &[u8], refusal: R::Refusal) -> String {
    let fault = rules.faults(image).into_iter().find(|fault| fault.refusal == refusal);
    let hint = rules.hint(image, refusal).map(|hint| format!(" ({hint})"));
    said(refusal, fault.map(|fault| fault.text)) + &hint.unwrap_or_default()
}

/// A refusal with its text, or with its own where there is none.
pub fn said<R: Refused>(refusal: R, text: Option<String>) -> String {
    match text {
        Some(text) => format!("refused {}", Fault { refusal, text }),
        None => refusal.to_string(),
    }
}
