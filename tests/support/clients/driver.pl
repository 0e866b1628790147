# As driver.py, for the client in Perl.
use strict;
use warnings;
use FindBin;
use lib "$FindBin::Bin/../../../clients/perl";
use Noticed;

my %is_number = map { $_ => 1 }
    qw(service action last_attempt retry_until moment arrival expected returned wording place);
my ($command, $path, @limits) = @ARGV;
my ($client, $failed);
if ($command eq 'carry') {
    my %limits;
    @limits{ (qw(connect send worker answer request reach))[0 .. $#limits] } = @limits;
    $client = eval { Noticed->new($path, %limits) } or ($failed) = $@ =~ /^(\w+)/;
}
$| = 1;

sub request {
    my ($kind, $number, @words) = split ' ', $_[0];
    my %fields = map { my ($name, $value) = split /=/, $_, 2; ($name, $is_number{$name} ? $value : pack 'H*', $value) } @words;
    return ($kind, $number, %fields);
}

sub shown { my ($it) = @_; return "$it->{reply} $it->{value} " . ($it->{serial} // '-') }

my %does = (
    encode => sub { my ($kind, $number, %fields) = request($_[0]); delete $fields{place}; unpack 'H*', Noticed::encode($kind, $number, %fields) },
    decode => sub {
        my ($number, $answer) = Noticed::decode(substr pack('H*', $_[0]), 4);
        return $answer ? "$number " . shown($answer) : 'invalid';
    },
    carry => sub {
        return $failed if $failed;
        if ($_[0] eq 'close') { $client->close; return 'closed' }
        my ($kind, undef, %fields) = request($_[0]);
        return shown($client->$kind(%fields));
    },
);
while (my $line = <STDIN>) {
    chomp $line;
    my $said = eval { $does{$command}->($line) };
    ($said) = $@ =~ /^(refused .*|\w+)/ if !defined $said;
    print "$said\n";
}
