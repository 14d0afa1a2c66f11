impl Channel<u32> {
    /// What there is to see of an array.
    pub(crate) fn peek(&self) -> crate::record::ArraySeen {
        crate::record::ArraySeen {
            shape: [self.cap, self.mark_bit, self.one_lap],
            head: self.head.peek(),
            tail: self.tail.peek(),
            slots: self.buffer.iter().map(|slot| (slot.stamp.peek(), slot.msg.shown())).collect(),
        }
    }

    /// Which word is at an address.
    pub(crate) fn named(&self, address: usize) -> crate::record::Name {
        if address == self.head.address() {
            return crate::record::Name::Head;
        }
        if address == self.tail.address() {
            return crate::record::Name::Tail;
        }
        crate::record::Name::Stamp
    }
}
