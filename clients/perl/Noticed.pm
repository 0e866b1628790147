package Noticed;
use strict;
use warnings;
use Carp qw(croak);
use Exporter qw(import);
use IO::Select;
use IO::Socket::UNIX;
use Socket qw(SOCK_STREAM);
use Time::HiRes qw(sleep time);

=head1 NAME

Noticed - a client of noticed(8): it logs what happened to each recipient of a mail, and has the notice made

=head1 SYNOPSIS

    my @key = (service => BOUNCE, queue_id => 'A1B2C3');
    my $client = Noticed->new('/run/noticed/socket');
    my $logged = $client->append(@key, recipient => 'bob@example.org', action => FAILED, status => '5.1.1', place => 0);
    if ($logged->{reply} == LOGGED) {
        my $made = $client->flush(@key, return_path => 'ann@example.com', moment => time, arrival => $arrived,
            expected => 1, header => $header);
        print "$made->{reply} $made->{value}\n";
    }

=head1 DESCRIPTION

The fields are those of noticed-protocol(5), version 3: the daemon tests their values. Texts are bytes. Open a client for
one message, then close it: it occupies a worker of the daemon.

An append has service, queue_id, recipient, action and status, and may have original_recipient, remote_mta, diagnostic,
reason, last_attempt, retry_until, recipient_type, original_type, diagnostic_type and extensions. A flush has service,
queue_id, return_path, moment, arrival and expected (how many outcomes the log must have), and may have envelope_id,
header, returned, wording and extensions. Any other name is invalid. A moment is seconds since 1970; extensions are lines
that LF ends. A diagnostic or reason of several lines is sent as one line.

The methods return a reference to a hash with reply, value and, of a notice, the serial, which is part of its Message-ID.
They die with a text that begins with a word: "invalid" if the request cannot be encoded, "path" if the path of the socket
is too long, "denied" without permission to connect, "unreachable" if no daemon carried the request out in time (keep the
message, and try again with the next run of your queue), "unanswered" as below, and "refused", a number and its words if
the daemon refused the request, which changed nothing. After "refused 9" try later; otherwise correct the request.

=head2 When may a request be repeated?

The client waits for a daemon, connects again, and repeats what is safe: a request that was not sent whole, and a flush,
discard or forget without an answer (a repeated flush is answered CLOSED then). An append without an answer may have been
logged. If this client alone appends to the log, give append its place: how many outcomes you logged there before. When
the connection has ended, the client counts the log, and appends again if the outcome is missing. Otherwise append dies
with "unanswered": discard and forget the log, and append all outcomes again.

=head2 What an answer means, and what to do

=over

=item LOGGED

The outcome is behind value others. If that is below the place, the daemon lost outcomes: append them again.

=item CLOSED

The log takes no more. After a flush: the notice is made.

=item TABLE_FULL

No key is free: forget one, or try later.

=item LOG_FULL

Flush, forget, and append the rest for a notice of its own.

=item NOTHING

The log is empty. If it should not be, the daemon lost outcomes: forget, append, flush.

=item NO_RETURN

The log is dropped, since the return path is null.

=item SEALED

A notice of value outcomes is made.

=item DISCARDED

The log of value outcomes is dropped.

=item FORGOTTEN

The key is free.

=item NOT_CLOSED

The log is open, or was forgotten before.

=item DIFFERS

Nothing was changed. The log has value outcomes: if too few, append what is missing, and flush.

=back

noticed-protocol(5) has more.

=cut

use constant { BOUNCE => 1, DEFER => 2, TRACE => 3 };    # services: for failures, for delays, for other reports
use constant { FAILED => 1, DELAYED => 2, DELIVERED => 3, RELAYED => 4, EXPANDED => 5 };    # actions
use constant NULL_PATH => '<>';          # the null return path, which gets no notice; an empty path is an error
use constant ANY       => 0xFFFFFFFF;    # expected: any number of outcomes
use constant { HEADER => 0, MESSAGE => 1, EIGHT_BIT_MESSAGE => 2 };    # returned; the last: if the next server offers 8BITMIME
use constant MESSAGE_OR_HEADER => 3;                                   # returned: its header if it is too long
use constant { BY_SERVICE => 0, BY_OUTCOME => 1 };    # wording: how words are chosen; by the outcome they say why and what to do
use constant { LONGEST_FRAME => 65_536, LONGEST_HEADER => 32_768, LONGEST_TEXT => 800 };  # a longer diagnostic is cut
use constant LONGEST_PATH => 107;    # bytes of the socket's path
use constant { LOGGED => 1, CLOSED => 2, TABLE_FULL => 3, LOG_FULL => 4, NOTHING => 5, NO_RETURN => 6, SEALED => 7 };
use constant { DISCARDED => 8, GONE => 9, REFUSED => 10, FORGOTTEN => 11, NOT_CLOSED => 12, DIFFERS => 13 };
our @EXPORT = qw(BOUNCE DEFER TRACE FAILED DELAYED DELIVERED RELAYED EXPANDED NULL_PATH ANY HEADER MESSAGE
    EIGHT_BIT_MESSAGE MESSAGE_OR_HEADER BY_SERVICE BY_OUTCOME LOGGED CLOSED TABLE_FULL LOG_FULL NOTHING NO_RETURN SEALED DISCARDED GONE
    REFUSED FORGOTTEN NOT_CLOSED DIFFERS);
my %KINDS = (append => 1, flush => 2, discard => 3, forget => 4);
my @NEEDED = qw(service queue_id);
my %NEEDED = (append => [@NEEDED, qw(recipient action status)], discard => \@NEEDED, forget => \@NEEDED,
    flush => [@NEEDED, qw(return_path moment arrival expected)]);
my %KNOWN = (%NEEDED, append => [@{ $NEEDED{append} }, qw(original_recipient remote_mta diagnostic reason last_attempt
    retry_until recipient_type original_type diagnostic_type extensions)],
    flush => [@{ $NEEDED{flush} }, qw(envelope_id header returned wording extensions)]);
my %LIMITS = (connect => 5, send => 30, worker => 60, answer => 30, request => 300, reach => 10);
my $NONE = ~0;    # in place of a moment
my %FAULTS = (    # the numbers of a refusal
    1 => "the final recipient is not an address",
    2 => "the original recipient is neither empty nor an address",
    3 => "the action is unknown, or the service's log takes none of it",
    4 => "the status is not a status code",
    5 => "the class of the status does not fit the action",
    6 => "the remote system's name is neither empty nor a name",
    7 => "the diagnostic is too long",
    8 => "the reason is too long",
    9 => "memory was refused",
    10 => "a time until which delivery is retried, for a recipient that is not delayed",
    15 => "the type of the final recipient is neither empty nor the name of a type",
    16 => "the type of the original recipient is malformed, or there is no original recipient",
    17 => "the type of the diagnostic is malformed, or there is no diagnostic",
    18 => "it is unknown whether the header field holds the header or the message",
    19 => "the wording of a notice is unknown",
    20 => "the extension fields are malformed",
    21 => "the version of a request is unknown",
    22 => "the kind of a request, or of an answer's reply, is unknown",
    23 => "a request ends before its fields do",
    24 => "bytes follow the last field of a request",
    25 => "the service is unknown",
    26 => "the queue id is malformed",
    27 => "a moment is after the year 9999",
    28 => "the returned header is too long",
    29 => "the return path is neither empty nor an address",
    30 => "the envelope id is neither empty nor valid",
);

# The texts of these fields, each behind its length; one that is longer than a frame is found in encode.
sub _texts { return join '', map { pack('n', length($_ // '') & 0xFFFF) . ($_ // '') } @_ }

# A text of several lines as one. Each line of a reply repeats the reply code (RFC 5321 section 4.2.1), and often the
# status: both are kept once. Line ends become a space; the daemon would make each of their bytes a question mark.
sub _one_line {
    my ($text) = @_;
    return $text if $text !~ /[\r\n]/;
    my ($first, @others) = grep { $_ ne '' } map { s/^[ \t]+|[ \t]+$//gr } split /[\r\n]+/, $text;
    return '' if !defined $first;
    my ($code, $status) = $first =~ /^(?:([2-5]\d\d)(?:[ -] *|$))?(?:([245]\.\d{1,3}\.\d{1,3})(?:[ -]|$))?/a;
    return join ' ', grep { ($_ // '') ne '' } $code, _behind($first, $code),
        map { _behind(_behind($_, $code), $status) } @others;
}

# A line without a code that it begins with.
sub _behind {
    my ($line, $code) = @_;
    $line =~ s/^\Q$code\E(?:[ -] *|$)// if defined $code;
    return $line;
}

sub _fields {
    my ($kind, %it) = @_;
    if ($kind eq 'append') {
        my @said = map { substr(_one_line($_ // ''), 0, LONGEST_TEXT) } @it{qw(diagnostic reason)};
        return _texts(@it{qw(original_recipient recipient)}) . pack('C', $it{action})
            . _texts(@it{qw(status remote_mta)}, @said) . pack('Q>Q>', map { $_ // $NONE } @it{qw(last_attempt retry_until)})
            . _texts(@it{qw(recipient_type original_type diagnostic_type extensions)});
    }
    return '' if $kind ne 'flush';
    my ($header, $returned) = ($it{header} // '', $it{returned} // HEADER);
    if (length $header > LONGEST_HEADER && ($returned == HEADER || $returned == MESSAGE_OR_HEADER)) {
        ($header, $returned) = ((split /^\r?\n/m, $header, 2)[0], HEADER);
    }
    croak 'invalid: the header or message is too long' if length $header > LONGEST_HEADER;
    croak 'invalid: there is no return path; the null one is NULL_PATH' if $it{return_path} eq '';
    return pack('Q>Q>', @it{qw(moment arrival)})
        . _texts($it{return_path} eq NULL_PATH ? '' : $it{return_path}, $it{envelope_id}, $header)
        . pack('NCC', $it{expected}, $returned == MESSAGE_OR_HEADER ? MESSAGE : $returned, $it{wording} // BY_OUTCOME) . _texts($it{extensions});
}

=head1 FUNCTIONS

=head2 encode($kind, $number, %fields)

The frame of an append, flush, discard or forget.

=cut

sub encode {
    my ($kind, $number, %it) = @_;
    _known($KNOWN{$kind}, %it);
    defined $it{$_} or croak "invalid: no $_" for @{ $NEEDED{$kind} };
    my $body = pack('CCNC', 3, $KINDS{$kind}, $number, $it{service}) . _texts($it{queue_id}) . _fields($kind, %it);
    croak 'invalid: a text has characters above 255' if !utf8::downgrade($body, 1);
    croak 'invalid: the request is longer than a frame' if length $body > LONGEST_FRAME;
    return pack('N', length $body) . $body;
}

# Croaks if a name is not one of these.
sub _known {
    my ($names, %it) = @_;
    my %is_known = map { $_ => 1 } @$names;
    my @unknown = grep { !$is_known{$_} } sort keys %it;
    croak "invalid: unknown @unknown" if @unknown;
    return;
}

=head2 decode($body)

The number of the request, and the answer, of a frame without its length; nothing if it is not an answer.

=cut

sub decode {
    my ($body) = @_;
    my ($version, $reply, $number, $value, $serial) = unpack 'CCNNQ>', $body;
    my $is_whole = length $body == 10 || length $body == 18 && $reply == SEALED;
    return if !$is_whole || $version != 1 || $reply < LOGGED || $reply > DIFFERS;
    return ($number, { reply => $reply, value => $value, serial => $serial });
}

=head2 Noticed->new($path, %limits)

A client of the daemon at this socket. Limits, in seconds: connect, send (a request), worker (until one is free), answer,
request (all its tries), reach (all its tries while no daemon was ever reached).

=cut

sub new {
    my ($class, $path, %limits) = @_;
    _known([keys %LIMITS], %limits);
    croak "path: that of the socket is longer than ${\LONGEST_PATH} bytes: $path" if length $path > LONGEST_PATH;
    return bless { path => $path, %LIMITS, %limits }, $class;
}

=head2 close, append(%fields), flush(%fields), discard(%key), forget(%key)

Forget a key when no late outcome of its message can come.

=cut

sub close { delete $_[0]{stream}; return }    ## no critic (a connection ends with its last reference)
sub flush   { my ($self, %it) = @_; return $self->_ask(encode('flush',   0, %it), 1) }
sub discard { my ($self, %it) = @_; return $self->_ask(encode('discard', 0, %it), 1) }
sub forget  { my ($self, %it) = @_; return $self->_ask(encode('forget',  0, %it), 1) }

sub append {
    my ($self, %it) = @_;
    my $place = delete $it{place};
    my $frame = encode('append', 0, %it);
    while (1) {
        my $answer = eval { $self->_ask($frame, 0) };
        return $answer if $answer;
        my $why = $@;
        die $why if !defined $place || $why !~ /^unanswered: (?!silent)/;
        # no log has so many outcomes: the answer is DIFFERS, and nothing is changed
        my %notice = (return_path => NULL_PATH, moment => 0, arrival => 0, expected => ANY - 1);
        my $found = eval { $self->flush(service => $it{service}, queue_id => $it{queue_id}, %notice)->{value} } // die $why;
        return { reply => LOGGED, value => $place } if $found == $place + 1;
        die $why if $found > $place;
    }
}

sub _ask {
    my ($self, $frame, $again) = @_;
    my ($pause, $began) = (0.05, time);
    while (1) {
        my $answer = eval {
            $self->_connect if !$self->{stream};
            substr $frame, 6, 4, pack 'N', $self->{number};
            $self->_exchange($frame, $self->{answer});
        };
        my $why = $@;
        return $answer if $answer && $answer->{reply} != REFUSED;
        if ($answer) {
            $why = "refused $answer->{value}: " . ($FAULTS{ $answer->{value} } // 'see noticed help faults') . "\n";
            die $why if $answer->{value} !~ /^4[46]$/;    # after these two another connection serves
        }
        $self->close;
        die $why if $why =~ /^denied/ || $why =~ /^unanswered/ && !$again;
        my $limit = $self->{is_reached} || $self->{request} < $self->{reach} ? $self->{request} : $self->{reach};
        die "unreachable: $self->{path}: $why" if time + $pause > $began + $limit;
        sleep $pause;
        $pause = 2 * $pause < 5 ? 2 * $pause : 5;
    }
}

sub _connect {
    my ($self) = @_;
    my $stream = IO::Socket::UNIX->new(Type => SOCK_STREAM, Peer => $self->{path}, Timeout => $self->{connect});
    # these two: the queue of the socket is full, so a daemon listens
    $self->{is_reached} = 1 if $stream || $!{EAGAIN} || $!{ETIMEDOUT};
    die $!{EACCES} ? "denied: $!\n" : "not sent: $!\n" if !$stream;
    $stream->blocking(0);
    @$self{qw(stream number)} = ($stream, 0);
    # a frame that is refused: its answer says that a worker is there
    eval { $self->_exchange("\0\0\0\1\0", $self->{worker}) } or die "not sent: no worker: $@";
    return;
}

# The answer to a frame; dies with "unanswered" if it was sent whole, and none came.
sub _exchange {
    my ($self, $frame, $limit) = @_;
    my ($until, $sent, $stream) = (time + $self->{send}, 0, $self->{stream});
    local $SIG{PIPE} = 'IGNORE';
    while ($sent < length $frame) {
        IO::Select->new($stream)->can_write($until - time) or die "not sent: no room in time\n";
        my $more = syswrite $stream, $frame, length($frame) - $sent, $sent;
        die "not sent: $!\n" if !defined $more && !$!{EAGAIN} && !$!{EINTR};
        $sent += $more // 0;
    }
    $until = time + $limit;
    my $size = unpack 'N', $self->_read(4, $until);
    die "unanswered: a frame of $size bytes\n" if $size > LONGEST_FRAME;
    my ($number, $answer) = decode($self->_read($size, $until));
    die "unanswered: not an answer to this request\n" if !$answer || $number != $self->{number};
    $self->{number}++;
    return $answer;
}

sub _read {
    my ($self, $size, $until) = @_;
    my $got = '';
    while (length $got < $size) {
        IO::Select->new($self->{stream})->can_read($until - time > 0 ? $until - time : 0) or die "unanswered: silent\n";
        my $more = sysread $self->{stream}, $got, $size - length $got, length $got;
        die "unanswered: the connection ended\n" if defined $more ? !$more : !$!{EAGAIN} && !$!{EINTR};
    }
    return $got;
}

1;
