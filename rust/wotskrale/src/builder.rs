//! Paths put together one component at a time.

use crate::refusal::tested;
use crate::{plain, Limits, Path, PathRef, Refusal};

/// A path under way, of a declared length and count, in a buffer of its own or a lent one.
///
/// A refusal leaves builder and buffer as they were.
///
/// ```
/// use wotskrale::{Limits, Path, PathBuilder, Refusal};
///
/// let limits = Limits::new(2, 2, 3);
/// let mut builder = PathBuilder::new(limits, 3, 2)?;
/// builder.append_component(&[1, 2])?;
/// assert_eq!(builder.build(), Err(Refusal::Unfinished));
/// assert_eq!(builder.append_component(&[3, 4]), Err(Refusal::Overfilled));
/// builder.append_component(&[3])?;
/// assert_eq!(builder.build()?, Path::from_slices(limits, &[&[1, 2], &[3]])?);
/// # Ok::<(), Refusal>(())
/// ```
#[derive(Clone, Debug)]
pub struct PathBuilder<B = Vec<u8>> {
    state: plain::Builder,
    buffer: B,
}

/// Room for a path of a declared length and count; for sizes over the limits, which are refused, no more than the limits need.
fn room(limits: Limits, length: u64, count: u64) -> Vec<u8> {
    let declared = count.saturating_add(1).saturating_mul(8);
    let declared = declared.saturating_add(length);
    let most = limits.longest_packed();
    vec![0; usize::try_from(declared).map_or(most, |n| n.min(most))]
}

impl PathBuilder {
    /// A builder for a path of so many bytes and components.
    pub fn new(limits: Limits, length: u64, count: u64) -> Result<Self, Refusal> {
        PathBuilder::in_buffer(limits, length, count, room(limits, length, count))
    }

    /// A builder that begins with the first `n` components of a reference.
    ///
    /// ```
    /// use wotskrale::{Limits, Path, PathBuilder, Refusal};
    ///
    /// let limits = Limits::new(2, 2, 3);
    /// let reference = Path::from_slices(limits, &[&[1], &[2]])?;
    /// let mut builder = PathBuilder::new_from_prefix(limits, 2, 2, reference.lent(), 1)?;
    /// builder.append_component(&[9])?;
    /// assert_eq!(builder.build()?, Path::from_slices(limits, &[&[1], &[9]])?);
    /// let none = PathBuilder::new_from_prefix(limits, 2, 2, reference.lent(), 3);
    /// assert_eq!(none.err(), Some(Refusal::NoSuchPrefix));
    /// # Ok::<(), Refusal>(())
    /// ```
    pub fn new_from_prefix(
        limits: Limits,
        length: u64,
        count: u64,
        reference: PathRef<'_>,
        n: u64,
    ) -> Result<Self, Refusal> {
        let buffer = room(limits, length, count);
        PathBuilder::from_prefix_in_buffer(limits, length, count, reference, n, buffer)
    }
}

impl<B: AsRef<[u8]> + AsMut<[u8]>> PathBuilder<B> {
    /// A builder in a given buffer, whose bytes may be any.
    pub fn in_buffer(
        limits: Limits,
        length: u64,
        count: u64,
        mut buffer: B,
    ) -> Result<Self, Refusal> {
        let started = plain::builder_new(limits, length, count, buffer.as_mut());
        PathBuilder::started(started, buffer)
    }

    /// A builder in a given buffer that begins with the first `n` components of a reference.
    pub fn from_prefix_in_buffer(
        limits: Limits,
        length: u64,
        count: u64,
        reference: PathRef<'_>,
        n: u64,
        mut buffer: B,
    ) -> Result<Self, Refusal> {
        let out = buffer.as_mut();
        let started = plain::builder_new_from_prefix(limits, length, count, reference, n, out);
        PathBuilder::started(started, buffer)
    }

    fn started(answer: plain::BuilderAnswer, buffer: B) -> Result<Self, Refusal> {
        tested(answer.status)?;
        let state = answer.state;
        Ok(PathBuilder { state, buffer })
    }

    /// The next component.
    pub fn append_component(&mut self, component: &[u8]) -> Result<(), Refusal> {
        let out = self.buffer.as_mut();
        let answer = plain::builder_append_component(self.state, out, component);
        self.state = answer.state;
        tested(answer.status)
    }

    /// The path, if it has as many components and bytes as were declared.
    pub fn build(&self) -> Result<Path, Refusal> {
        self.built()
            .map(|path| Path::written(path.to_vec(), path.len()))
    }

    /// The packed path in the buffer, if it has as many components and bytes as were declared.
    pub fn built(&self) -> Result<&[u8], Refusal> {
        let buffer = self.buffer.as_ref();
        let answer = plain::builder_build(self.state, buffer);
        tested(answer.status)?;
        // What was built is no longer than the buffer.
        Ok(buffer.get(..answer.value as usize).unwrap_or(buffer))
    }
}
