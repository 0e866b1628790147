// Package noticed is a client of noticed(8): it logs what happened to each recipient of a mail, and has the notice made.
//
//	client, key := noticed.New("/run/noticed/socket"), noticed.Key{Service: noticed.Bounce, QueueID: "A1B2C3"}
//	defer client.Close()
//	answer, err := client.Append(key, noticed.Outcome{Recipient: "bob@example.org", Action: noticed.Failed, Status: "5.1.1"}, 0)
//	if err == nil && answer.Reply == noticed.Logged {
//		answer, err = client.Flush(key, noticed.Notice{ReturnPath: "ann@example.com", Moment: now, Arrival: arrived, Expected: 1})
//	}
//
// The constants say what each answer means, and what to do. A request that the daemon refuses returns a RefusedError.
//
// The fields are those of noticed-protocol(5), version 3: the daemon tests their values. Open a client for one message,
// then close it: it occupies a worker of the daemon. Goroutines cannot share one.
//
// When may a request be repeated? The client waits for a daemon, connects again, and repeats what is safe: a request that
// was not sent whole, and a flush, discard or forget without an answer (a repeated flush is answered Closed then). An
// append without an answer may have been logged. If this client alone appends to the log, give Append its place: how many
// outcomes you logged there before. When the connection has ended, the client counts the log, and appends again if the
// outcome is missing. Otherwise it returns ErrUnanswered: discard and forget the log, and append all outcomes again.
package noticed

import (
	"encoding/binary"
	"errors"
	"fmt"
	"io"
	"net"
	"os"
	"regexp"
	"strings"
	"syscall"
	"time"
)

// Values of fields, bounds in bytes (a longer diagnostic or reason is cut), and replies, with what to do after each.
const (
	Bounce, Defer, Trace                              = 1, 2, 3       // services: for failures, for delays, for other reports
	Failed, Delayed, Delivered, Relayed, Expanded     = 1, 2, 3, 4, 5 // actions
	NoPlace                                           = -1            // of an append: others append to the log
	NullPath                                          = "<>"          // the null return path, which gets no notice
	Any                                               = 1<<32 - 1     // Expected: any number of outcomes
	Header, Message, EightBitMessage, MessageOrHeader = 0, 1, 2, 3    // Returned; third: for 8BITMIME; last: its header if too long
	ByOutcome, ByService                              = 1, 2          // Wording: how words are chosen; 0 too is by the outcome
	LongestFrame, LongestHeader, LongestText          = 65_536, 32_768, 800
	LongestPath                                       = 107 // bytes of the socket's path

	Logged    = 1  // behind Value others. If that is below the place, the daemon lost outcomes: append them again
	Closed    = 2  // the log takes no more. After a flush: the notice is made
	TableFull = 3  // no key is free: forget one, or try later
	LogFull   = 4  // flush, forget, and append the rest for a notice of its own
	Nothing   = 5  // the log is empty. If it should not be, the daemon lost outcomes: forget, append, flush
	NoReturn  = 6  // the log is dropped, since the return path is null
	Sealed    = 7  // a notice of Value outcomes is made
	Discarded = 8  // the log of Value outcomes is dropped
	Gone      = 9  // never sent
	Refused   = 10 // nothing was changed; returned as a RefusedError
	Forgotten = 11 // the key is free
	NotClosed = 12 // the log is open, or was forgotten before
	Differs   = 13 // nothing was changed. The log has Value outcomes: if too few, append what is missing, and flush
)

// Errors. After ErrUnreachable keep the message, and try again with the next run of your queue.
var (
	ErrInvalid     = errors.New("the request cannot be encoded")
	ErrUnreachable = errors.New("no daemon carried the request out in time")
	ErrUnanswered  = errors.New("an append was sent and not answered: it may be logged")
	ErrPathTooLong = errors.New("the socket's path is longer than 107 bytes")
)

var (
	emptyLine  = regexp.MustCompile(`(?m)^\r?\n`)
	lineBreaks = regexp.MustCompile(`[\r\n]+`)
	codes      = regexp.MustCompile(`^(?:([2-5]\d\d)(?:[ -] *|$))?(?:([245]\.\d{1,3}\.\d{1,3})(?:[ -]|$))?`) // 550 5.1.1
)

// RefusedError says that the daemon refused the request, which changed nothing. If Number is 9 try later; otherwise
// correct the request.
type RefusedError struct{ Number uint32 }

func (e *RefusedError) Error() string {
	words, isKnown := faults[e.Number]
	if !isKnown {
		words = "see noticed help faults"
	}
	return fmt.Sprintf("refused %d: %s", e.Number, words)
}

// faults has the words of the numbers that a refusal may have.
var faults = map[uint32]string{
	1:  "the final recipient is not an address",
	2:  "the original recipient is neither empty nor an address",
	3:  "the action is unknown, or the service's log takes none of it",
	4:  "the status is not a status code",
	5:  "the class of the status does not fit the action",
	6:  "the remote system's name is neither empty nor a name",
	7:  "the diagnostic is too long",
	8:  "the reason is too long",
	9:  "memory was refused",
	10: "a time until which delivery is retried, for a recipient that is not delayed",
	15: "the type of the final recipient is neither empty nor the name of a type",
	16: "the type of the original recipient is malformed, or there is no original recipient",
	17: "the type of the diagnostic is malformed, or there is no diagnostic",
	18: "it is unknown whether the header field holds the header or the message",
	19: "the wording of a notice is unknown",
	20: "the extension fields are malformed",
	21: "the version of a request is unknown",
	22: "the kind of a request, or of an answer's reply, is unknown",
	23: "a request ends before its fields do",
	24: "bytes follow the last field of a request",
	25: "the service is unknown",
	26: "the queue id is malformed",
	27: "a moment is after the year 9999",
	28: "the returned header is too long",
	29: "the return path is neither empty nor an address",
	30: "the envelope id is neither empty nor valid",
}

// Key names a log.
type Key struct {
	Service byte
	QueueID string
}

// Outcome is what happened to a recipient. A zero time is none; Extensions are lines that LF ends. A Diagnostic or Reason
// of several lines is sent as one line.
type Outcome struct {
	Recipient, Status, OriginalRecipient, RemoteMTA, Diagnostic, Reason string
	Action                                                              byte
	LastAttempt, RetryUntil                                             time.Time
	RecipientType, OriginalType, DiagnosticType, Extensions             string
}

// Notice is what a flush says: Moment is the notice's date, Expected how many outcomes the log must have.
type Notice struct {
	ReturnPath, EnvelopeID, Header, Extensions string
	Moment, Arrival                            time.Time
	Expected                                   uint32
	Returned, Wording                          byte
}

// Answer is an answer. The Serial of a notice is part of its Message-ID; without one it is -1.
type Answer struct {
	Reply  byte
	Value  uint32
	Serial int64
}

// Limits are those to connect, to send a request, until a worker is free, until an answer, for all tries of a request,
// and for all of them while no daemon was ever reached.
type Limits struct{ Connect, Send, Worker, Answer, Request, Reach time.Duration }

func texts(to []byte, texts ...string) []byte {
	for _, it := range texts {
		to = append(binary.BigEndian.AppendUint16(to, uint16(len(it))), it...)
	}
	return to
}

func moment(to []byte, it time.Time) []byte {
	if it.IsZero() {
		return binary.BigEndian.AppendUint64(to, 1<<64-1)
	}
	return binary.BigEndian.AppendUint64(to, uint64(it.Unix()))
}

// oneLine makes one line of a text of several. Each line of a reply repeats the reply code (RFC 5321 section 4.2.1), and
// often the status: both are kept once. Line ends become a space; the daemon would make each of their bytes a question mark.
func oneLine(text string) string {
	if !strings.ContainsAny(text, "\r\n") {
		return text
	}
	code, status, parts := "", "", []string{}
	for _, line := range lineBreaks.Split(text, -1) {
		if line = strings.Trim(line, " \t"); line == "" {
			continue
		}
		if len(parts) == 0 {
			found := codes.FindStringSubmatch(line)
			code, status = found[1], found[2]
			parts = append(parts, code, behind(line, code))
			continue
		}
		parts = append(parts, behind(behind(line, code), status))
	}
	said := ""
	for _, part := range parts {
		if said != "" && part != "" {
			said += " "
		}
		said += part
	}
	return said
}

// behind returns a line without a code that it begins with.
func behind(line, code string) string {
	rest := strings.TrimPrefix(line, code)
	switch {
	case code == "" || rest == line || rest != "" && rest[0] != ' ' && rest[0] != '-':
		return line
	case rest == "":
		return ""
	}
	return strings.TrimLeft(rest[1:], " ")
}

// EncodeAppend returns the frame of an append. Each Encode returns ErrInvalid if it is longer than a frame may be.
func EncodeAppend(number uint32, key Key, it Outcome) ([]byte, error) {
	for _, text := range []*string{&it.Diagnostic, &it.Reason} {
		if *text = oneLine(*text); len(*text) > LongestText {
			*text = (*text)[:LongestText]
		}
	}
	to := append(texts(nil, it.OriginalRecipient, it.Recipient), it.Action)
	to = texts(to, it.Status, it.RemoteMTA, it.Diagnostic, it.Reason)
	to = moment(moment(to, it.LastAttempt), it.RetryUntil)
	return Encode(1, number, key, texts(to, it.RecipientType, it.OriginalType, it.DiagnosticType, it.Extensions))
}

// EncodeFlush returns the frame of a flush. A header that is too long is an error too, as is a Message.
func EncodeFlush(number uint32, key Key, it Notice) ([]byte, error) {
	if len(it.Header) > LongestHeader && (it.Returned == Header || it.Returned == MessageOrHeader) {
		it.Header, it.Returned = emptyLine.Split(it.Header, 2)[0], Header
	}
	if len(it.Header) > LongestHeader || it.ReturnPath == "" || it.Moment.IsZero() || it.Arrival.IsZero() {
		return nil, fmt.Errorf("%w: its header is too long, or it has no return path, moment or arrival", ErrInvalid)
	}
	if it.Returned == MessageOrHeader {
		it.Returned = Message
	}
	if it.ReturnPath == NullPath {
		it.ReturnPath = ""
	}
	to := texts(moment(moment(nil, it.Moment), it.Arrival), it.ReturnPath, it.EnvelopeID, it.Header)
	to = append(binary.BigEndian.AppendUint32(to, it.Expected), it.Returned, onWire(it.Wording))
	return Encode(2, number, key, texts(to, it.Extensions))
}

// onWire returns the byte of a Wording, in which 0 is by the service.
func onWire(wording byte) byte {
	switch wording {
	case 0:
		return ByOutcome
	case ByService:
		return 0
	}
	return wording
}

// Encode returns the frame of a request of any kind: 1 append, 2 flush, 3 discard, 4 forget.
func Encode(kind byte, number uint32, key Key, fields []byte) ([]byte, error) {
	to := append(binary.BigEndian.AppendUint32([]byte{0, 0, 0, 0, 3, kind}, number), key.Service)
	to = append(texts(to, key.QueueID), fields...)
	if len(to)-4 > LongestFrame {
		return nil, fmt.Errorf("%w: it is longer than a frame", ErrInvalid)
	}
	binary.BigEndian.PutUint32(to, uint32(len(to)-4))
	return to, nil
}

// Decode reads the frame of an answer: the number of the request, and the answer.
func Decode(from io.Reader) (uint32, Answer, error) {
	var head [14]byte
	_, err := io.ReadFull(from, head[:])
	size, number := binary.BigEndian.Uint32(head[:]), binary.BigEndian.Uint32(head[6:])
	answer := Answer{head[5], binary.BigEndian.Uint32(head[10:]), -1}
	isSize := size == 10 || size == 18 && answer.Reply == Sealed
	if err == nil && (!isSize || head[4] != 1 || answer.Reply < Logged || answer.Reply > Differs) {
		err = fmt.Errorf("not an answer: %x", head)
	} else if err == nil && size == 18 {
		err = binary.Read(from, binary.BigEndian, &answer.Serial)
	}
	return number, answer, err
}

// Client carries requests out. Its methods return the answer, or one of the errors above, or os.ErrPermission.
type Client struct {
	Limits  Limits
	path    string
	conn    net.Conn
	number  uint32
	reached bool // whether a daemon ever was
	silent  bool // why the last request has no answer: else the connection ended
}

// New returns a client of the daemon at this socket, with the limits that noticed-protocol(5) recommends.
func New(path string) *Client {
	limits := Limits{5 * time.Second, 30 * time.Second, time.Minute, 30 * time.Second, 5 * time.Minute, 10 * time.Second}
	return &Client{Limits: limits, path: path}
}

// Close ends the connection; the next request opens another.
func (c *Client) Close() {
	if c.conn != nil {
		c.conn.Close()
		c.conn = nil
	}
}

// Append logs an outcome. ErrUnanswered if it may be logged; with a place only if a daemon is silent or others append.
func (c *Client) Append(key Key, outcome Outcome, place int) (Answer, error) {
	for {
		answer, err := c.ask(EncodeAppend(0, key, outcome))
		if place < 0 || !errors.Is(err, ErrUnanswered) || c.silent {
			return answer, err
		}
		now := time.Now() // no log has so many outcomes: the answer is Differs, and nothing is changed
		found, failed := c.Flush(key, Notice{ReturnPath: NullPath, Moment: now, Arrival: now, Expected: Any - 1})
		if failed != nil || int(found.Value) > place+1 {
			return answer, err
		}
		if int(found.Value) == place+1 {
			return Answer{Logged, uint32(place), -1}, nil
		}
	}
}

// Flush closes a log and has its notice made.
func (c *Client) Flush(key Key, notice Notice) (Answer, error) {
	return c.ask(EncodeFlush(0, key, notice))
}

// Discard closes a log without a notice.
func (c *Client) Discard(key Key) (Answer, error) { return c.ask(Encode(3, 0, key, nil)) }

// Forget releases the key of a closed log: do it when no late outcome of the message can come.
func (c *Client) Forget(key Key) (Answer, error) { return c.ask(Encode(4, 0, key, nil)) }

func (c *Client) ask(frame []byte, err error) (Answer, error) {
	if err != nil {
		return Answer{}, err
	}
	if len(c.path) > LongestPath {
		return Answer{}, fmt.Errorf("%w: %s", ErrPathTooLong, c.path)
	}
	pause, began := 50*time.Millisecond, time.Now()
	for {
		answer, err := c.try(frame)
		if err == nil && answer.Reply != Refused {
			return answer, nil
		}
		if err == nil {
			err = &RefusedError{answer.Value}
			if answer.Value != 44 && answer.Value != 46 { // after these two another connection serves
				return Answer{}, err
			}
		}
		c.Close()
		if errors.Is(err, os.ErrPermission) || frame[5] == 1 && errors.Is(err, ErrUnanswered) {
			return Answer{}, err
		}
		limit := c.Limits.Request
		if !c.reached && c.Limits.Reach < limit {
			limit = c.Limits.Reach
		}
		if time.Since(began)+pause > limit {
			return Answer{}, fmt.Errorf("%w: %s: %v", ErrUnreachable, c.path, err)
		}
		time.Sleep(pause)
		if pause *= 2; pause > 5*time.Second {
			pause = 5 * time.Second
		}
	}
}

func (c *Client) try(frame []byte) (Answer, error) {
	if c.conn == nil {
		conn, err := net.DialTimeout("unix", c.path, c.Limits.Connect)
		// EAGAIN: the queue of the socket is full, so a daemon listens
		c.reached = c.reached || err == nil || errors.Is(err, syscall.EAGAIN) || errors.Is(err, os.ErrDeadlineExceeded)
		if err != nil {
			return Answer{}, err
		}
		c.conn, c.number = conn, 0
		// a frame that is refused: its answer says that a worker is there
		if _, err := c.exchange([]byte{0, 0, 0, 1, 0}, c.Limits.Worker); err != nil {
			return Answer{}, fmt.Errorf("no worker: %v", err)
		}
	}
	binary.BigEndian.PutUint32(frame[6:], c.number)
	return c.exchange(frame, c.Limits.Answer)
}

// exchange returns the answer to a frame; ErrUnanswered if it was sent whole, and none came.
func (c *Client) exchange(frame []byte, limit time.Duration) (Answer, error) {
	c.conn.SetDeadline(time.Now().Add(c.Limits.Send))
	if _, err := c.conn.Write(frame); err != nil {
		return Answer{}, err
	}
	c.conn.SetDeadline(time.Now().Add(limit))
	number, answer, err := Decode(c.conn)
	if err != nil || number != c.number {
		c.silent = errors.Is(err, os.ErrDeadlineExceeded)
		return Answer{}, fmt.Errorf("%w: %v, %d for %d", ErrUnanswered, err, number, c.number)
	}
	c.number++
	return answer, nil
}
