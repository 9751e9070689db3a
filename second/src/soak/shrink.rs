//! The shortest lines that show a difference again.

use super::bench::Found;
use super::call::{Call, SBE_SEEPROM};
use super::pair::{Difference, Pair};
use second::bytes::hex;
use second::image::{self, IMAGE_LENGTH};
use second::protocol::{LONGEST_BUFFER, LONGEST_COMMAND, LONGEST_SEEPROM};
use second::session::Session;

/// An image and calls on it, made again on new buffers.
#[derive(Clone)]
struct Run {
    image: Vec<u8>,
    calls: Vec<Call>,
}

impl Run {
    /// The first difference, and how many calls it takes.
    fn shows(&self) -> Option<(usize, Difference)> {
        let mut pair = Pair::new(LONGEST_COMMAND.max(LONGEST_BUFFER as usize));
        pair.load(&self.image, 0);
        pair.paint(true, 0xEE);
        let made = self.calls.iter().map(|call| pair.make(call, 0));
        made.enumerate().find_map(|(at, made)| made.err().map(|difference| (at + 1, difference)))
    }

    /// Up to the first difference; false if there is none.
    fn cut(&mut self) -> bool {
        let shown = self.shows();
        if let Some((needed, _)) = shown {
            self.calls.truncate(needed);
        }
        shown.is_some()
    }

    /// Puts `other` in its place if that shows a difference too.
    fn try_instead(&mut self, mut other: Run) -> bool {
        let shown = other.cut();
        if shown {
            *self = other;
        }
        shown
    }

    /// Leaves out rows of calls, long ones first, as long as a difference is left.
    fn drop_calls(&mut self) {
        let mut length = self.calls.len().div_ceil(2);
        while length > 0 {
            let mut at = 0;
            while at < self.calls.len() {
                let mut other = self.clone();
                other.calls.drain(at..(at + length).min(other.calls.len()));
                if !self.try_instead(other) {
                    at += length;
                }
            }
            length /= 2;
        }
    }

    /// Whole reply buffers, where they show it.
    fn whole_buffers(&mut self) {
        for at in 0..self.calls.len() {
            let mut other = self.clone();
            if let Some(call) = other.calls.get_mut(at) {
                call.set_room(call.whole_room());
            }
            self.try_instead(other);
        }
    }

    /// The image as near to the fresh one as a difference lets it be.
    fn near_fresh(&mut self) {
        let fresh = image::write(&Session::fresh());
        if self.image.len() != fresh.len() {
            return;
        }
        let mut length = fresh.len();
        while length > 0 {
            for at in (0..fresh.len()).step_by(length) {
                let end = (at + length).min(fresh.len());
                if self.image[at..end] != fresh[at..end] {
                    let mut other = self.clone();
                    other.image[at..end].copy_from_slice(&fresh[at..end]);
                    self.try_instead(other);
                }
            }
            length /= 2;
        }
    }

    /// Lines for `standin`; the last ones show the session and what stands beside a reply.
    fn lines(&self) -> String {
        let mut text = String::new();
        if self.image.len() != IMAGE_LENGTH {
            text += &format!("# on an image of {} bytes, which no line can load\n", self.image.len());
        } else if self.image != image::write(&Session::fresh()) {
            text += &format!("load {}\n", hex(&self.image));
        }
        let mut whole = true;
        let mut lent: &[u8] = &[];
        for call in &self.calls {
            if call.number() == SBE_SEEPROM && call.second_input() != lent {
                lent = call.second_input();
                text += &match lent.len() {
                    0..=LONGEST_SEEPROM => format!("seeprom {}\n", hex(lent)),
                    length => format!("# with an image of {length} bytes lent, which no line can do\n"),
                };
            }
            if call.room() != call.whole_room() {
                text += &format!("buffer {}\n", call.room());
            } else if !whole && call.whole_room() > 0 {
                text += "buffer\n";
            }
            whole = call.room() == call.whole_room();
            text += &call.line();
            text.push('\n');
        }
        match self.shows() {
            Some((_, Difference::Image { .. })) => text += "image\n",
            Some((_, Difference::Result { .. })) if matches!(self.calls.last(), Some(Call::Occ { .. })) => {
                text += "why\n"
            }
            _ => {}
        }
        text
    }
}

/// The lines, and what they show; `None` if the calls, made again, show nothing. Tried are all calls, from where they began and from a fresh
/// session, and the last one alone.
pub fn shortest(found: &Found) -> Option<(String, Difference)> {
    let fresh = image::write(&Session::fresh());
    let last: Vec<Call> = found.calls.last().cloned().into_iter().collect();
    let tried = [(&found.start, &found.calls), (&fresh, &found.calls), (&found.before, &last)];
    let shown = tried.into_iter().filter_map(|(image, calls)| {
        let mut run = Run { image: image.clone(), calls: calls.clone() };
        run.cut().then(|| {
            run.drop_calls();
            run.whole_buffers();
            run.near_fresh();
            run.drop_calls();
            run
        })
    });
    let best = shown.min_by_key(|run| run.lines().len())?;
    let (_, difference) = best.shows()?;
    Some((best.lines(), difference))
}
