"""The manual pages of section 5 as a plain program that shares nothing with the daemon's code: what the fuzzers compare
it with.

noticed-protocol(5): bodies (requests and their refusals), logs (what a request does), sessions (frames, answers, a
whole run of `batch`). noticed-notice(5): notices (dates, returned lines, boundary, notice, outbox). noticed-journal(5):
journal and listing."""
