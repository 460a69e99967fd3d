//! Whose timeout decided what a timeout certificate makes safe.

use crate::raw;
use crate::refusal::Refusal;
use crate::types::Settings;

/// On whose timeout the choice hung: the lowest sender whose timeout, taken out, leaves a certificate that still has n − f − c
/// timeouts but another safe block by name. Weak certificates are built anew of the timeouts that are left.
///
/// It is none where no sender has that property, as with exactly n − f − c timeouts: then none can be taken out. A replica
/// forms its certificates as soon as it has so many, so those with more come from elsewhere.
///
/// The record is a timeout certificate (kind 6) of any bytes; no replica is touched. [`Refusal::meaning_for_decisive`] has
/// words for what it is refused for.
///
/// In the cluster of six four timeouts are enough, and two high votes make a block safe. Replica 0 proposes a block that only
/// replica 1 takes; then five time out. Without either of these two the block isn't safe:
///
/// ```
/// use replica::{decisive_timeout, Contents, Refusal, Replica, Settings, View};
///
/// let settings = Settings { f: 1, c: 1, k: 0, n: 6 };
/// let leaders = settings.in_turn();
/// let mut cluster = (0..5).map(|own| Replica::open(settings, own, &leaders)).collect::<Result<Vec<_>, Refusal>>()?;
/// let contents = Contents(b"title 7 issued");
/// let (_, accepted) = cluster[0].propose_contents(contents)?;
/// let proposal = accepted.unsaved().records().next().unwrap().bytes.to_vec();
/// cluster[1].record_with(&proposal, contents)?.unsaved();
///
/// let mut certificate = Vec::new();
/// certificate.extend_from_slice(&(24 + 5 * 112u32).to_le_bytes()); // the record's length
/// certificate.extend_from_slice(&[6, 0, 4, 0]); // kind 6, sender 4
/// certificate.extend_from_slice(&1u64.to_le_bytes()); // view 1
/// certificate.extend_from_slice(&[5, 0, 0, 0, 0, 0, 0, 0]); // five timeouts
/// for replica in &mut cluster {
///     certificate.extend_from_slice(replica.timer(View(1))?.unsaved().bytes());
/// }
/// assert_eq!(decisive_timeout(settings, &certificate), Ok(Some(0)));
///
/// certificate[8] = 0; // of another view than its timeouts
/// assert_eq!(decisive_timeout(settings, &certificate), Err(Refusal::Content));
/// # Ok::<(), Refusal>(())
/// ```
pub fn decisive_timeout(settings: Settings, record: &[u8]) -> Result<Option<u64>, Refusal> {
    let raw::Decisive { refusal, found, sender } = raw::decisive(settings, record);
    Refusal::judge(refusal)?;
    Ok(found.then_some(sender))
}
