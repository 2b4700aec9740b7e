# Runs a script of irssi for a test, which says on standard input what happens, and hears on standard output what the script sends
# and what irssi shows: play.pl SCRIPT FOLDER
use strict;
use warnings;
use FindBin;
use lib $FindBin::Bin;
use Irssi;

my ($script, $folder) = @ARGV;
$Irssi::folder = $folder;
$| = 1;
my $server = Irssi::Server->new();
# The time of the line that is being heard.
my $time = '';

# A message in a window: when it was said, by whom, whether it looks as one's own, and whether it catches the eye.
sub show {
    my ($window, $nick, $is_own, $text) = @_;
    $server->item($window);
    my $is_named = $Irssi::settings{hilight_nick_matches} && index($text, $server->{nick}) >= 0;
    my $is_highlight = !$is_own && (lc $window eq lc $nick || $is_named) ? 1 : 0;
    print join("\t", "show $window", $time, $nick, $is_own ? 1 : 0, $is_highlight, $text), "\n";
}

sub show_message {
    my (undef, $data, $nick) = @_;
    my ($target, $text) = $data =~ /^(\S+) :?(.*)$/;
    my $is_own = $nick eq $server->{nick};
    show($target =~ /^#/ || $is_own ? $target : $nick, $nick, $is_own, $text);
}

for my $command (qw(batch chathistory markread)) {
    $Irssi::programs{"event $command"} = sub { print "raw $command $_[1]\n" };
}
%Irssi::programs = (
    %Irssi::programs,
    'server event tags' => sub {
        my (undef, $line, $nick, $address) = @_;
        my ($command, $data) = $line =~ /^(\S+) ?(.*)$/;
        Irssi::signal_emit('event ' . lc $command, $server, $data, $nick, $address);
    },
    'event privmsg' => \&show_message,
    'event notice' => \&show_message,
    'event 001' => sub { ($server->{nick}) = $_[1] =~ /^(\S+)/ },
    'event join' => sub {
        my (undef, $data, $nick, $address) = @_;
        print "critical: nicklist_set_host: host != NULL\n" if !$address;
        join_channel($data =~ s/^://r) if $nick eq $server->{nick};
    },
    'window dehilight' => sub { my ($item) = $_[0]->items(); print "read $item->{name}\n" },
    'message own_private' => sub { show($_[2], $server->{nick}, 1, $_[1]) },
    'message irc own_notice' => sub { show($_[2], $server->{nick}, 1, $_[1]) },
    'message own_public' => sub { show($_[2], $server->{nick}, 1, $_[1]) },
);

# A channel that was joined before gets another window, unless the one that it had is left open and used again.
sub join_channel {
    my ($channel) = @_;
    my $is_kept = !$Irssi::settings{autoclose_windows} && $Irssi::settings{reuse_unused_windows};
    print "closed $channel\n" if $server->window_item_find($channel) && !$is_kept;
    $server->item($channel);
}

sub hear {
    my ($line) = @_;
    my ($tags, $source, $rest) = $line =~ /^(?:@(\S+) )?(?::(\S+) )?(.*)$/;
    my ($nick, $address) = split /!/, $source // '', 2;
    ($time) = ($tags // '') =~ /(?:^|;)time=([^;]+)/;
    $time //= '';
    Irssi::signal_emit('server event tags', $server, $rest, $nick, $address // '', $tags // '');
    $time = '';
}

my %happenings = (
    clock => sub { $Irssi::clock = $_[0] },
    line => \&hear,
    minute => sub { $Irssi::timer->() },
    typed => sub { my ($target, $text) = split / /, $_[0], 2; type($target, $text) },
    command => sub { $Irssi::commands{bnc_history}->($_[0], $server) },
    leave => sub { Irssi::signal_emit('window changed', Irssi::Window->new(2), $server->item($_[0])->window()) },
    nicks => sub { $Irssi::settings{bnc_own_nicks} = $_[0] },
    gone => sub { Irssi::signal_emit('server disconnected', $server) },
);

sub type {
    my ($target, $text) = @_;
    my $kind = $target =~ /^#/ ? 'public' : 'private';
    Irssi::signal_emit("message own_$kind", $server, $text, $target, $target);
}

# (irssi hands a script its settings and commands as it is loaded)
do $script or die $@ || "$script: $!";
print "done\n";
while (my $happening = <STDIN>) {
    chomp $happening;
    my ($what, $words) = split / /, $happening, 2;
    $happenings{$what}->($words // '');
    print "done\n";
}
