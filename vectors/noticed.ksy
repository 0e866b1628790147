# The frames of noticed(8), version 3, for Kaitai Struct (https://kaitai.io). noticed-protocol(5) says what each field
# may have. A stream of requests is the root; one of answers is the type `answers`.
meta:
  id: noticed
  title: Frames between noticed and its clients
  endian: be
seq:
  - id: frames
    type: request_frame
    repeat: eos
types:
  answers:
    seq:
      - id: frames
        type: answer_frame
        repeat: eos
  text:
    seq:
      - id: len_value
        type: u2
      - id: value
        size: len_value
  request_frame:
    seq:
      - id: len_body
        type: u4
        doc: 1 to 65,536
      - id: body
        type: request
        size: len_body
  request:
    seq:
      - id: version
        type: u1
      - id: fields
        type: fields
        if: version == 3
      - id: other
        size-eos: true
        if: version != 3
        doc: a request of another version
  fields:
    seq:
      - id: kind
        type: u1
        enum: kinds
      - id: number
        type: u4
        doc: the position of the frame, from 0
      - id: service
        type: u1
        enum: services
      - id: queue_id
        type: text
      - id: about
        type:
          switch-on: kind
          cases:
            kinds::append: outcome
            kinds::flush: notice
        doc: a discard and a forget have nothing here
  outcome:
    seq:
      - id: original_recipient
        type: text
      - id: recipient
        type: text
      - id: action
        type: u1
        enum: actions
      - id: status
        type: text
      - id: remote_mta
        type: text
      - id: diagnostic
        type: text
      - id: reason
        type: text
      - id: last_attempt
        type: u8
        doc: seconds since 1970, or 0xffffffffffffffff for none
      - id: retry_until
        type: u8
        doc: the same
      - id: recipient_type
        type: text
      - id: original_type
        type: text
      - id: diagnostic_type
        type: text
      - id: extensions
        type: text
  notice:
    seq:
      - id: moment
        type: u8
        doc: seconds since 1970
      - id: arrival
        type: u8
      - id: return_path
        type: text
      - id: envelope_id
        type: text
      - id: header
        type: text
      - id: expected
        type: u4
        doc: 0xffffffff for any number
      - id: returned
        type: u1
        enum: returned
      - id: wording
        type: u1
        enum: wording
      - id: extensions
        type: text
  answer_frame:
    seq:
      - id: len_body
        type: u4
      - id: body
        type: answer
        size: len_body
  answer:
    seq:
      - id: version
        type: u1
        doc: 1
      - id: reply
        type: u1
        enum: replies
      - id: number
        type: u4
        doc: the position of the request
      - id: value
        type: u4
      - id: serial
        type: u8
        if: not _io.eof
        doc: of a notice, in answer to a flush of version 3
enums:
  kinds:
    1: append
    2: flush
    3: discard
    4: forget
  services:
    1: bounce
    2: defer
    3: trace
  actions:
    1: failed
    2: delayed
    3: delivered
    4: relayed
    5: expanded
  returned:
    0: header
    1: message
    2: eight_bit_message
  wording:
    0: by_service
    1: by_outcome
  replies:
    1: logged
    2: closed
    3: table_full
    4: log_full
    5: nothing
    6: no_return
    7: sealed
    8: discarded
    9: gone
    10: refused
    11: forgotten
    12: not_closed
    13: differs
