"""The window of NewReno (RFC 5681, RFC 6582)."""

LARGEST_WINDOW = 2**30


class Reno:
    def __init__(self, smss, syn_was_repeated=False):
        self.smss = smss
        segments = 1 if syn_was_repeated else 4 if smss <= 1095 else 3 if smss <= 2190 else 2
        self.cwnd, self.ssthresh = segments * smss, 65535
        self.dup = self.recover = 0
        self.recovering, self.timed_out_at = False, None
        self.hold()

    def hold(self):
        self.cwnd = min(max(self.cwnd, self.smss), LARGEST_WINDOW)

    def new_ack(self, ack, acked, flight):
        """Whether the first segment is to be sent again."""
        again = False
        if self.recovering and ack >= self.recover:
            self.cwnd = min(self.ssthresh, max(flight, self.smss) + self.smss)
            self.recovering, self.dup = False, 0
        elif self.recovering:
            again = True
            self.cwnd -= acked
            if acked >= self.smss:
                self.cwnd += self.smss
        else:
            self.dup = 0
            if self.cwnd < self.ssthresh:
                self.cwnd += min(acked, self.smss)
            else:
                self.cwnd += max(1, self.smss * self.smss // self.cwnd)
        self.hold()
        return again

    def dup_ack(self, ack, top, flight):
        again = False
        if self.recovering:
            self.cwnd += self.smss
        else:
            self.dup += 1
            if self.dup == 3 and ack > self.recover:
                self.ssthresh = max(flight // 2, 2 * self.smss)
                self.recover, self.recovering, again = top, True, True
                self.cwnd = self.ssthresh + 3 * self.smss
        self.hold()
        return again

    def timeout(self, una, top, flight):
        if self.timed_out_at != una:
            self.ssthresh = max(flight // 2, 2 * self.smss)
        self.timed_out_at = una
        self.cwnd, self.recover, self.dup, self.recovering = self.smss, top, 0, False
        self.hold()
