//! What calls tell, as text.

use moments::{Call, Moment};

use crate::kinds::kind;
use crate::text;

/// Makes the calls, and gives what they did and the text of all that is told at the end.
pub fn told(moment: &mut Moment, calls: &[Call]) -> (Vec<String>, String) {
    let (mut kinds, mut answers) = (Vec::new(), Vec::new());
    for &call in calls {
        let before = moment.clone();
        let answer = moment.call(call);
        kinds.push(kind(&before, call, answer, moment));
        answers.push(answer);
    }
    let text = text::told(&answers, &moment.state, &moment.words);
    (kinds, text)
}

/// The claim that the calls from this moment on tell what the twin tells; the moment moves on.
pub fn claim_from(name: &str, moment: &mut Moment, calls: &[Call]) -> (Vec<String>, String) {
    let left = format!(
        "going {} {} {}",
        text::list(calls.iter().map(|&call| text::call(call))),
        text::state(&moment.state),
        text::numbers(&moment.words)
    );
    let (kinds, right) = told(moment, calls);
    (kinds, text::claim(name, &left, &right))
}
