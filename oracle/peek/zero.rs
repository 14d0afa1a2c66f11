impl Channel<u32> {
    /// The flag, and the entries of the senders' and the receivers' queue.
    pub(crate) fn peek(&self) -> (bool, [Vec<crate::record::Entry>; 2]) {
        let inner = self.inner.peek();
        (inner.is_disconnected, [inner.senders.peek(), inner.receivers.peek()])
    }
}

/// The packet at an address, while its owner waits.
pub(crate) unsafe fn packet_at(address: usize) -> crate::record::PacketSeen {
    let packet = unsafe { &*(address as *const Packet<u32>) };
    crate::record::PacketSeen {
        message: unsafe { *packet.msg.get() }.unwrap_or(0),
        ready: packet.ready.peek(),
        message_at: packet.msg.get() as usize,
        ready_at: packet.ready.address(),
    }
}
