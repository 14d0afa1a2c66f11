impl Waker {
    /// The entries, oldest first: whose they are, and their packets.
    pub(crate) fn peek(&self) -> Vec<crate::record::Entry> {
        self.selectors.iter().map(|entry| crate::record::Entry { owner: entry.cx.thread_id(), packet: entry.packet as usize }).collect()
    }
}
