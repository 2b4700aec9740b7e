# Script for irssi: asks a bnc for what was missed, and sets read markers. Written for irssi 1.4 with its Perl support.
#
# Put this file into ~/.irssi/scripts/autorun, or load it once by `/script load /path/to/bnc_history.pl`.
# `/set show_server_time on` shows the messages' own times.
#
# It acts on each server that announces CHATHISTORY. As it attaches, as it joins a channel again, and every minute, it asks which
# conversations have messages since a moment, and then for the messages of each, and shows those that it hasn't shown. That moment
# lies ten minutes before the last asking; as it attaches, and once an hour, a day before it. `/bnc_history 3d` asks for the last
# three days (also m, h, w, a time such as 2026-01-31T12:00, or all).
#
# A message that comes after later ones is marked as late, since irssi shows messages at the end of a window alone. As you leave a
# window its read marker is set; where another of your devices has read a conversation to its end, it is no activity here.
#
# One setting, bnc_own_nicks: the nicks that your nodes have on the networks, with spaces between them. What is said under one of
# these highlights nothing. Where it is empty, they are the connection's own nick, its trailing digits and underscores replaced by
# any. `/set bnc_own_nicks al1 al2`.
#
# What was shown is kept in ~/.irssi/bnc_history.shown.
use strict;
use warnings;
# (a script may be loaded again)
no warnings 'redefine';

# -- moments: milliseconds after 1970 began

package BncHistory::Moment;
use POSIX qw(strftime);
use Time::Local qw(timegm);

our $END_OF_TIME = '9999-12-31T23:59:59.999Z';
our $MINUTE = 60_000;
our $DAY = 24 * 60 * $MINUTE;

# The moment that a time of IRCv3 (server-time) or a part of one, as 2026-01-31T12:00, stands for.
sub of_time {
    my ($text) = @_;
    return unless $text =~ /^(\d{4})-(\d\d)-(\d\d)(?:T(\d\d):(\d\d)(?::(\d\d)(?:\.(\d{3}))?)?Z?)?$/;
    my ($year, $month, $day, @rest) = ($1, $2, $3, map { $_ || 0 } $4, $5, $6, $7);
    return if $year < 1970;
    my $seconds = eval { timegm($rest[2], $rest[1], $rest[0], $day, $month - 1, $year) };
    return defined $seconds ? $seconds * 1000 + $rest[3] : undef;
}

# The time as IRCv3 has it.
sub time_of {
    my ($moment) = @_;
    return strftime('%Y-%m-%dT%H:%M:%S', gmtime int($moment / 1000)) . sprintf('.%03dZ', $moment % 1000);
}

# The moment that the words of a person name: 90m, 12h, 3d, 2w, a time, or all.
sub before {
    my ($words, $now) = @_;
    if ($words =~ /^(\d{1,6})([mhdw])$/) {
        my %unit = (m => $MINUTE, h => 60 * $MINUTE, d => $DAY, w => 7 * $DAY);
        return BncHistory::Moment::greatest(0, $now - $1 * $unit{$2});
    }
    return $words eq 'all' ? 0 : of_time($words);
}

sub greatest { my ($one, $other) = @_; return $one > $other ? $one : $other }
sub least { my ($one, $other) = @_; return $one < $other ? $one : $other }

# -- what was shown: which messages of a conversation

package BncHistory::Conversation;

# How many ids are kept at least, once that many messages were shown.
our $MOST_IDS = 4_000;
# How many askings go by until a line without an id is no longer looked for among the answers, and how many such lines are kept.
our ($NAMELESS_ASKINGS, $MOST_NAMELESS) = (10, 100);

# `ids` has the moment of each id: all that were shown after the moment `forgotten`. `latest` is the greatest moment that was
# shown. `nameless` has what was shown without an id and not yet found among the answers, and for how many askings it is looked
# for: words that were typed here, and lines that came before the script held the tags of messages.
sub new {
    my ($class, $forgotten, $latest) = @_;
    return bless { ids => {}, forgotten => $forgotten // -1, latest => $latest // -1, nameless => [] }, $class;
}

sub show {
    my ($self, $id, $moment) = @_;
    $self->{latest} = BncHistory::Moment::greatest($self->{latest}, $moment);
    my $ids = $self->{ids};
    $ids->{$id} = $moment if $id ne '';
    return if keys %$ids <= $MOST_IDS + $MOST_IDS / 4;
    my @oldest = sort { $ids->{$a} <=> $ids->{$b} } keys %$ids;
    splice @oldest, -$MOST_IDS;
    $self->{forgotten} = BncHistory::Moment::greatest($self->{forgotten}, $ids->{$oldest[-1]});
    delete @$ids{@oldest};
}

sub show_nameless {
    my ($self, $words) = @_;
    my $nameless = $self->{nameless};
    push @$nameless, [$words, $NAMELESS_ASKINGS];
    shift @$nameless if @$nameless > $MOST_NAMELESS;
}

# Whether such a line was shown, which is so once for each.
sub take_nameless {
    my ($self, $words) = @_;
    my $nameless = $self->{nameless};
    for my $number (0 .. $#$nameless) {
        next if $nameless->[$number][0] ne $words;
        splice @$nameless, $number, 1;
        return 1;
    }
    return 0;
}

sub end_asking {
    my ($self) = @_;
    $self->{nameless} = [map { [$_->[0], $_->[1] - 1] } grep { $_->[1] > 1 } @{$self->{nameless}}];
}

# -- from which moment on is asked

package BncHistory::Window;

# How far before the last asking the next one begins.
our $OVERLAP = 10 * $BncHistory::Moment::MINUTE;

# `last` is the moment of the last asking that came to its end, `heard` the latest time of a line that came over this connection.
sub new {
    my ($class, $last) = @_;
    return bless { last => $last, heard => undef }, $class;
}

sub hear {
    my ($self, $moment) = @_;
    $self->{heard} = BncHistory::Moment::greatest($self->{heard} // 0, $moment);
}

# The moment of an asking that begins now: by the lines that came, since the own clock may be ahead; and not after the own clock,
# since a line may have a time to come.
sub present {
    my ($self, $clock) = @_;
    return defined $self->{heard} ? BncHistory::Moment::least($self->{heard}, $clock) : undef;
}

sub last_asking {
    my ($self, $clock) = @_;
    return defined $self->{last} ? BncHistory::Moment::least($self->{last}, $clock) : $clock;
}

# Where nothing is known of an asking, the window is as wide as it may be.
sub begin {
    my ($self, $clock, $is_wide) = @_;
    my $back = $is_wide || !defined $self->{last} ? $BncHistory::Moment::DAY : $OVERLAP;
    return BncHistory::Moment::greatest($self->last_asking($clock) - $back, 0);
}

# -- which conversations have messages after a moment: CHATHISTORY TARGETS, page by page

package BncHistory::TargetPages;

# `is_crowded` says whether more conversations end at one moment than a page has, so that some weren't listed.
sub new {
    my ($class, $begin, $limit) = @_;
    return bless { target => '', begin => $begin, limit => $limit, found => {}, page => [], is_crowded => 0 }, $class;
}

sub question {
    my ($self) = @_;
    my $begin = BncHistory::Moment::time_of($self->{begin});
    return "CHATHISTORY TARGETS timestamp=$begin timestamp=$BncHistory::Moment::END_OF_TIME $self->{limit}";
}

sub take {
    my ($self, $target, $moment) = @_;
    push @{$self->{page}}, [$target, $moment];
}

# Whether there is a further page.
sub end_page {
    my ($self) = @_;
    my @page = splice @{$self->{page}};
    my $is_news = grep { !exists $self->{found}{$_->[0]} } @page;
    $self->{found}{$_->[0]} = $_->[1] for @page;
    return 0 if @page < $self->{limit};
    # (several conversations may end at the last moment of a page)
    my $last = $page[-1][1];
    $self->{is_crowded} ||= !$is_news;
    $self->{begin} = $is_news ? BncHistory::Moment::greatest($last - 1, $self->{begin}) : $last;
    return 1;
}

sub refuse { return 0 }

# -- the messages of a conversation after a moment: CHATHISTORY AFTER, page by page

package BncHistory::MessagePages;

sub new {
    my ($class, $target, $begin, $limit) = @_;
    my $selector = 'timestamp=' . BncHistory::Moment::time_of($begin);
    return bless { target => $target, limit => $limit, selector => $selector, count => 0, last => { moment => $begin } }, $class;
}

sub question {
    my ($self) = @_;
    return "CHATHISTORY AFTER $self->{target} $self->{selector} $self->{limit}";
}

sub take {
    my ($self, $message) = @_;
    $self->{count}++;
    $self->{last} = $message;
}

# Whether there is a further page, which begins after the last id: more messages may have its moment.
sub end_page {
    my ($self) = @_;
    my $is_full = $self->{count} >= $self->{limit};
    $self->{count} = 0;
    $self->{selector} = "msgid=$self->{last}{id}" if $is_full;
    return $is_full;
}

# Where the last id was let go meanwhile, whatever has its moment was too.
sub refuse {
    my ($self) = @_;
    return 0 if $self->{selector} !~ /^msgid=/;
    $self->{selector} = 'timestamp=' . BncHistory::Moment::time_of($self->{last}{moment});
    return 1;
}

# -- a server: what was shown of it, and the asking that is under way there while the client is attached

package BncHistory::Session;

our $WANTED = 'batch draft/chathistory draft/read-marker message-tags server-time';
# The length of a page, where the server doesn't say it (005, CHATHISTORY=100).
our $PAGE = 100;

# A nick or a channel without regard to the case of A to Z (CASEMAPPING=ascii).
sub folded { my ($name) = @_; return $name =~ tr/A-Z/a-z/r }

# Whether it is a channel, or those in one who have a certain status, as @#a.
sub is_channel { my ($target) = @_; return $target =~ /^[~&@%+!]*[#&]/ }

# `client` is an object with send, clock, nick, own_nicks and open_conversations.
sub new {
    my ($class, $client) = @_;
    return bless {
        client => $client, window => BncHistory::Window->new(), conversations => {}, limit => $PAGE, minutes => 0,
        # whether the client is attached, and whether it hasn't been told the channels' members and topics since
        is_attached => 0, is_new => 0,
        # the asking that is under way, and the one that is due once that has ended: how far back, and for whom
        asking => undef, next => undef,
        # the channels that were joined and not asked for since, and the targets of the pages that are being read
        joined => [], batches => {},
    }, $class;
}

# The client's session with the node has begun, and the node has acknowledged what is wanted.
sub attach {
    my ($self) = @_;
    @$self{qw(is_attached is_new asking next minutes)} = (1, 1, undef, undef, 0);
    $self->{window}{heard} = undef;
    $self->ask($self->{window}->begin($self->{client}->clock(), 1), 0);
}

sub detach {
    my ($self) = @_;
    @$self{qw(is_attached asking next batches)} = (0, undef, undef, {});
}

# The client is in a channel. What came while it wasn't is asked for.
sub join_channel {
    my ($self, $channel) = @_;
    return unless $self->{is_attached};
    push @{$self->{joined}}, folded($channel);
    $self->ask($self->{window}->begin($self->{client}->clock(), 0), 0);
}

# A minute is over.
sub minute {
    my ($self) = @_;
    return unless $self->{is_attached};
    $self->{minutes}++;
    my $asking = $self->{asking};
    if ($asking && !$asking->{is_answered}) {
        # (its answer is lost: its window is asked for once more)
        $self->{asking} = undef;
        $self->ask(@$asking{qw(begin is_wanted)});
    } elsif ($asking) {
        $asking->{is_answered} = 0;
    }
    $self->ask($self->{window}->begin($self->{client}->clock(), $self->{minutes} % 60 == 0), 0);
}

# A person wants to see what was said since then. Answers whether the words name a moment.
sub want {
    my ($self, $words) = @_;
    my $begin = BncHistory::Moment::before($words, $self->{window}->last_asking($self->{client}->clock()));
    $self->ask(BncHistory::Moment::greatest($begin - 1, 0), 1) if defined $begin && $self->{is_attached};
    return defined $begin;
}

# Begins an asking, now or once the one that is under way has ended. Of its questions one is under way at a time: they wait for
# one another, and what a person types doesn't wait for them.
sub ask {
    my ($self, $begin, $is_wanted) = @_;
    if ($self->{next}) {
        $begin = BncHistory::Moment::least($begin, $self->{next}[0]);
        $is_wanted ||= $self->{next}[1];
    }
    $self->{next} = [$begin, $is_wanted];
    return if $self->{asking};
    $self->{next} = undef;
    my $asking = $self->{asking} = {
        begin => $begin, is_wanted => $is_wanted, present => $self->{window}->present($self->{client}->clock()),
        # the question under way, those that wait, and the batch that answers it
        part => BncHistory::TargetPages->new($begin, $self->{limit}), waiting => [], batch => '',
        # whether anything came since the last minute
        is_answered => 1,
    };
    $self->{client}->send($asking->{part}->question());
}

# A page is over, or refused: the next question, if there is one.
sub end_part {
    my ($self, $is_further) = @_;
    my $asking = $self->{asking};
    @$asking{qw(batch is_answered)} = ('', 1);
    if (!$is_further) {
        $asking->{waiting} = $self->parts_of($asking, $asking->{part}) if $asking->{part}->isa('BncHistory::TargetPages');
        $asking->{part} = shift @{$asking->{waiting}} or return $self->end_asking($asking);
    }
    $self->{client}->send($asking->{part}->question());
}

# The conversations that are paged: those that were listed, but for channels that the client isn't in, where it could show
# nothing; channels that it joined; and all where some weren't listed.
sub parts_of {
    my ($self, $asking, $listed) = @_;
    my %is_open = map { folded($_) => 1 } $self->{client}->open_conversations();
    my %begin = map { $_ => $asking->{begin} } keys %{$listed->{found}};
    if ($listed->{is_crowded}) {
        $begin{$_} = $asking->{begin} for keys %is_open, keys %{$self->{conversations}};
    }
    for my $channel (splice @{$self->{joined}}) {
        my $known = $self->{conversations}{$channel};
        my $latest = $known && $known->{latest} >= 0 ? $known->{latest} : $asking->{begin};
        $begin{$channel} = BncHistory::Moment::least($asking->{begin}, $latest);
    }
    my @shown = grep { my $bare = s/^[~&@%+!]*(?=[#&])//r; !is_channel($_) || $is_open{$_} || $is_open{$bare} } sort keys %begin;
    return [map { BncHistory::MessagePages->new($_, $self->begin_of($_, $begin{$_}, $asking), $self->{limit}) } @shown];
}

# Of what was shown before, and is no longer known one by one, nothing is shown again, unless a person wants it.
sub begin_of {
    my ($self, $target, $begin, $asking) = @_;
    my $known = $self->{conversations}{$target};
    $begin = BncHistory::Moment::greatest($begin, $known->{forgotten}) if $known && !$asking->{is_wanted};
    return BncHistory::Moment::greatest($begin, 0);
}

sub end_asking {
    my ($self, $asking) = @_;
    $self->{window}{last} = $asking->{present} if defined $asking->{present};
    $_->end_asking() for values %{$self->{conversations}};
    $self->{asking} = undef;
    $self->ask_channels() if $self->{is_new};
    $self->ask(@{$self->{next}}) if $self->{next};
}

# As the client attaches, the node tells it which channels it is in, and nothing else of them.
sub ask_channels {
    my ($self) = @_;
    $self->{is_new} = 0;
    for my $channel (grep { is_channel($_) } $self->{client}->open_conversations()) {
        $self->{client}->send_on("NAMES $channel");
        $self->{client}->send_on("TOPIC $channel");
    }
}

# `BATCH +r1 chathistory #a`, `BATCH +r1 draft/chathistory-targets`, `BATCH -r1`.
sub hear_batch {
    my ($self, $reference, undef, $target) = @_;
    my $asking = $self->{asking};
    if ($reference =~ s/^\+//) {
        $self->{batches}{$reference} = $target = folded($target // '');
        $asking->{batch} = $reference if $asking && $asking->{part}{target} eq $target;
        return;
    }
    $reference =~ s/^-//;
    delete $self->{batches}{$reference};
    $self->end_part($asking->{part}->end_page()) if $asking && $asking->{batch} eq $reference;
}

# `CHATHISTORY TARGETS #a 2026-01-02T03:04:05.678Z`.
sub hear_target {
    my ($self, undef, $target, $time) = @_;
    my $moment = BncHistory::Moment::of_time($time // '');
    my $part = $self->{asking} && $self->{asking}{part};
    $part->take($target, $moment) if defined $moment && $part && $part->isa('BncHistory::TargetPages');
}

# `FAIL CHATHISTORY MESSAGE_ERROR AFTER #a :No such message`. Answers whether it is of a question of this script.
sub hear_refusal {
    my ($self, undef, undef, $subcommand) = @_;
    my $asking = $self->{asking};
    return 0 if !$asking || $asking->{batch} ne '' || $asking->{part}->question() !~ /^CHATHISTORY \Q$subcommand\E /;
    $self->end_part($asking->{part}->refuse());
    return 1;
}

# How a message (nick, target, text, id, moment, batch) is shown, or nothing if it was shown before: whether it is one's own, and
# whether later ones were shown before it.
sub hear {
    my ($self, $message) = @_;
    my ($asking, $batch) = ($self->{asking}, $message->{batch});
    $self->{window}->hear($message->{moment}) if defined $message->{moment};
    my $is_answer = $asking && $batch ne '' && $asking->{batch} eq $batch && $asking->{part}->isa('BncHistory::MessagePages');
    $asking->{part}->take($message) if $is_answer;
    my $target = $self->{batches}{$batch} || $self->conversation_of($message);
    my $known = $self->{conversations}{$target} ||= BncHistory::Conversation->new();
    return if $message->{id} ne '' && exists $known->{ids}{$message->{id}};
    my ($moment, $is_own) = ($message->{moment}, $self->is_own($message, $target));
    # (what tells it from others where its id isn't known)
    my $words = join ' ', $moment // '-', @$message{qw(nick text)};
    my $is_known = $is_own && $known->take_nameless($message->{text}) || $batch ne '' && $known->take_nameless($words);
    my $is_late = defined $moment && $moment < $known->{latest};
    $known->show($message->{id}, $moment) if defined $moment;
    $known->show_nameless($words) if $message->{id} eq '';
    return if $batch ne '' && ($is_known || is_request($message->{text}));
    return { is_own => $is_own, is_late => $is_late, moment => $moment };
}

# A request of CTCP, which isn't answered once it is past.
sub is_request { my ($text) = @_; return $text =~ /^\x01(?!ACTION )/ }

# That of a message which came as it was said.
sub conversation_of {
    my ($self, $message) = @_;
    my $is_mine = folded($message->{nick}) eq folded($self->{client}->nick());
    return folded(is_channel($message->{target}) || $is_mine ? $message->{target} : $message->{nick});
}

# In a private conversation, whatever isn't said by the other is one's own, whichever of one's nodes it was said at.
sub is_own {
    my ($self, $message, $conversation) = @_;
    my $nick = folded($message->{nick});
    my $is_private = !is_channel($conversation) && $conversation !~ /^\$/;
    return $is_private ? $nick ne $conversation : $self->is_own_nick($nick);
}

sub is_own_nick {
    my ($self, $nick) = @_;
    my $mine = folded($self->{client}->nick());
    my @nicks = split ' ', folded($self->{client}->own_nicks());
    return 1 if $nick eq $mine;
    return scalar grep { $_ eq $nick } @nicks if @nicks;
    my ($stem) = $mine =~ /^(.+?)[0-9_]*$/;
    return $nick =~ /^\Q$stem\E[0-9_]*$/;
}

# The client shows what is typed in it by itself.
sub type {
    my ($self, $target, $text) = @_;
    ($self->{conversations}{folded($target)} ||= BncHistory::Conversation->new())->show_nameless($text);
}

# What a conversation has shown has been read.
sub leave {
    my ($self, $target) = @_;
    my $known = $self->{conversations}{folded($target)};
    return if !$self->{is_attached} || !$known || $known->{latest} < 0;
    $self->{client}->send("MARKREAD $target timestamp=" . BncHistory::Moment::time_of($known->{latest}));
}

# Whether the marker in `MARKREAD #a timestamp=2026-01-02T03:04:05.678Z` is behind all that was shown there.
sub is_read {
    my ($self, $target, $marker) = @_;
    my ($time) = ($marker // '') =~ /^timestamp=(.*)$/ or return 0;
    my ($moment, $known) = (BncHistory::Moment::of_time($time), $self->{conversations}{folded($target)});
    return defined $moment && (!$known || $moment >= $known->{latest});
}

# -- what is kept from one run of the client to the next

package BncHistory::Store;

# Of how many conversations of a server.
our $MOST_CONVERSATIONS = 1_000;

sub new {
    my ($class, $path) = @_;
    my $self = bless { path => $path, servers => {}, written => '' }, $class;
    $self->read();
    return $self;
}

# A line `server <name> <last asking, or ->` stands before those of its conversations, and a line
# `conversation <target> <forgotten> <latest>` before the ids that were shown there, `<id> <moment>`.
sub read {
    my ($self) = @_;
    open(my $file, '<', $self->{path}) or return;
    my ($server, $conversation);
    while (my $line = <$file>) {
        my @words = split ' ', $line;
        if (@words == 3 && $words[0] eq 'server') {
            $server = $self->{servers}{$words[1]} = { last => $words[2] eq '-' ? undef : $words[2], conversations => {} };
        } elsif (@words == 4 && $words[0] eq 'conversation' && $server) {
            $conversation = $server->{conversations}{$words[1]} = BncHistory::Conversation->new(@words[2, 3]);
        } elsif (@words == 2 && $conversation) {
            $conversation->{ids}{$words[0]} = $words[1];
        }
    }
    close $file;
}

# The session with that server, as it was left.
sub session {
    my ($self, $client, $name) = @_;
    my ($session, $held) = (BncHistory::Session->new($client), $self->{servers}{$name});
    $session->{window}{last} = $held->{last} if $held;
    $session->{conversations} = $held->{conversations} if $held;
    return $session;
}

sub save {
    my ($self, %sessions) = @_;
    for my $name (keys %sessions) {
        my $session = $sessions{$name};
        $self->{servers}{$name} = { last => $session->{window}{last}, conversations => $session->{conversations} };
    }
    my $text = join '', map { $self->text_of($_) } sort keys %{$self->{servers}};
    return if $text eq $self->{written};
    open(my $file, '>', "$self->{path}.new") or return;
    print $file $text;
    close $file or return;
    rename "$self->{path}.new", $self->{path} or return;
    $self->{written} = $text;
}

sub text_of {
    my ($self, $name) = @_;
    my ($last, $them) = @{$self->{servers}{$name}}{qw(last conversations)};
    my @latest = sort { $them->{$b}{latest} <=> $them->{$a}{latest} || $a cmp $b } grep { $them->{$_}{latest} >= 0 } keys %$them;
    splice @latest, $MOST_CONVERSATIONS if @latest > $MOST_CONVERSATIONS;
    my $text = 'server ' . $name . ' ' . ($last // '-') . "\n";
    for my $target (@latest) {
        my ($ids, $forgotten, $latest) = @{$them->{$target}}{qw(ids forgotten latest)};
        $text .= "conversation $target $forgotten $latest\n" . join '', map { "$_ $ids->{$_}\n" } sort keys %$ids;
    }
    return $text;
}

# -- a server in irssi

package BncHistory::Irssi;

sub new {
    my ($class, $server) = @_;
    return bless { server => $server }, $class;
}

# What the node itself answers goes at once, and the rest at the pace that irssi has for a network.
sub send { my ($self, $line) = @_; $self->{server}->send_raw_now($line) }
sub send_on { my ($self, $line) = @_; $self->{server}->send_raw($line) }
sub clock { return time() * 1000 }
sub nick { my ($self) = @_; return $self->{server}{nick} }
sub own_nicks { return Irssi::settings_get_str('bnc_own_nicks') }
sub open_conversations { my ($self) = @_; return map { $_->{name} } $self->{server}->channels(), $self->{server}->queries() }

# -- the script, in the package that irssi gives it

package Irssi::Script::bnc_history;
use Irssi;
use POSIX qw(strftime);

our $VERSION = '2';
our %IRSSI = (
    name => 'bnc_history',
    description => 'asks a bnc for what was missed, and sets read markers',
    license => 'as the repository',
);

Irssi::settings_add_str('bnc_history', 'bnc_own_nicks', '');
my $store = BncHistory::Store->new(Irssi::get_irssi_dir() . '/bnc_history.shown');
# The sessions by their servers' names; and how the message is shown that irssi is about to show.
my (%sessions, $showing);

sub name_of { my ($server) = @_; return $server->{chatnet} || $server->{tag} }

# The session with a server while the client is attached to it.
sub attached {
    my ($server) = @_;
    my $session = $server && $sessions{name_of($server)};
    return $session && $session->{is_attached} ? $session : undef;
}

# 005: the server announces CHATHISTORY.
sub on_welcome {
    my ($server, $data) = @_;
    my ($limit) = $data =~ / CHATHISTORY=(\d+)/ or return;
    my $client = BncHistory::Irssi->new($server);
    my $session = $sessions{name_of($server)} ||= $store->session($client, name_of($server));
    @$session{qw(client limit)} = ($client, $limit || $BncHistory::Session::PAGE);
    $client->send("CAP REQ :$BncHistory::Session::WANTED");
}

# CAP ACK of what was asked for.
sub on_cap {
    my ($server, $data) = @_;
    my $session = $sessions{name_of($server)};
    $session->attach() if $session && !$session->{is_attached} && $data =~ / ACK :?\Q$BncHistory::Session::WANTED\E/;
}

sub on_gone {
    my ($server) = @_;
    my $session = attached($server) or return;
    $session->detach();
    $store->save(%sessions);
}

# The rest of what irssi does at a signal is done with other settings.
sub continue_with {
    my ($settings, @words) = @_;
    my %before = map { $_ => Irssi::settings_get_bool($_) } keys %$settings;
    Irssi::settings_set_bool($_, $settings->{$_}) for keys %$settings;
    Irssi::signal_continue(@words);
    Irssi::settings_set_bool($_, $before{$_}) for keys %before;
}

# `:al JOIN #a`, as the node says it while a client attaches: irssi needs a host. And where the node has joined a channel again,
# of which irssi never heard that it was left, irssi would close its window, with all that it shows, and open another one.
sub on_join_line {
    my ($server, $data, $nick, $address) = @_;
    return if !$sessions{name_of($server)} || $nick ne $server->{nick};
    continue_with({ autoclose_windows => 0, reuse_unused_windows => 1 }, $server, $data, $nick, $address || "$nick\@bnc");
}

sub on_join {
    my ($server, $data, $nick) = @_;
    my $session = attached($server) or return;
    my ($channel) = $data =~ /^:?(\S+)/;
    $session->join_channel($channel) if $nick eq $server->{nick};
}

# What the node says of the past. Nothing of it is shown.
sub on_batch {
    my ($server, $data) = @_;
    my $session = attached($server) or return;
    $session->hear_batch(split ' ', $data);
    Irssi::signal_stop();
}

sub on_chathistory {
    my ($server, $data) = @_;
    my $session = attached($server) or return;
    $session->hear_target(split ' ', $data);
    Irssi::signal_stop();
}

sub on_fail {
    my ($server, $data) = @_;
    my ($session, @words) = (attached($server), split ' ', $data);
    Irssi::signal_stop() if $session && $words[0] eq 'CHATHISTORY' && @words > 2 && $session->hear_refusal(@words);
}

# What another device has read to its end is no activity here.
sub on_markread {
    my ($server, $data) = @_;
    my $session = attached($server) or return;
    my ($target, $marker) = split ' ', $data =~ s/^://r =~ s/ :/ /r;
    my $item = $session->is_read($target, $marker) && $server->window_item_find($target);
    my $is_hidden = $item && $item->window()->{refnum} != Irssi::active_win()->{refnum};
    Irssi::signal_emit('window dehilight', $item->window()) if $is_hidden;
    Irssi::signal_stop();
}

# What is shown of a message that came late: when it was said stands behind it.
sub late {
    my ($text, $moment) = @_;
    my $time = strftime('%Y-%m-%d %H:%M:%S', localtime int($moment / 1000));
    return $text =~ s/(\x01?)$/ [late: said at $time]$1/r;
}

# Any message, live or of a page.
sub on_line {
    my ($server, $data, $nick, $address, $tags) = @_;
    my ($command, $target, $text) = $data =~ /^(\S+) (\S+) :?(.*)$/;
    # (also before the script holds its capabilities)
    my $session = $server && $sessions{name_of($server)};
    $showing = undef;
    return if !$session || ($command // '') !~ /^(?:PRIVMSG|NOTICE)$/i || !defined $nick;
    my %tag = map { /^([^=]+)=(.*)$/ ? ($1, $2) : () } split /;/, $tags // '';
    $showing = $session->hear({
        nick => $nick, target => $target, text => $text, id => $tag{msgid} // '', batch => $tag{batch} // '',
        moment => BncHistory::Moment::of_time($tag{time} // ''),
    });
    return Irssi::signal_stop() if !$showing;
    $text = late($text, $showing->{moment}) if $showing->{is_late};
    # (irssi looks for the own nick in what another nick says)
    my $settings = $showing->{is_own} ? { hilight_nick_matches => 0 } : {};
    continue_with($settings, $server, "$command $target :$text", $nick, $address, $tags);
    $showing = undef;
}

# What one said oneself in a private conversation at another node, or at another device.
sub on_private {
    my ($signal, $server, $data) = @_;
    my ($target, $text) = $data =~ /^(\S+) :?(.*)$/;
    return if !$showing || !$showing->{is_own} || BncHistory::Session::is_channel($target);
    my ($action) = $text =~ /^\x01ACTION (.*?)\x01?$/;
    if (defined $action) {
        Irssi::signal_emit('message irc own_action', $server, $action, $target);
    } else {
        Irssi::signal_emit($signal, $server, $text, $target, $target);
    }
    Irssi::signal_stop();
}

# A message was typed here, unless it is one of those above.
sub on_typed {
    my ($server, $text, $target) = @_;
    my $session = $sessions{name_of($server)};
    $session->type($target, $text) if $session && !$showing;
}

sub on_typed_action {
    my ($server, $text, $target) = @_;
    on_typed($server, "\x01ACTION $text\x01", $target);
}

# Another window is shown: what the one before shows has been read.
sub on_window {
    my ($window, $before) = @_;
    for my $item ($before ? $before->items() : ()) {
        my $session = attached($item->{server});
        $session->leave($item->{name}) if $session;
    }
}

sub on_minute {
    $_->minute() for values %sessions;
    $store->save(%sessions);
}

sub on_command {
    my ($words, $server) = @_;
    my $session = attached($server);
    return if $session && $session->want($words =~ s/\s//gr);
    Irssi::print('bnc_history: in a window of a bnc, with 90m, 12h, 3d, 2w, a time, or all');
}

Irssi::signal_add_first('event cap', \&on_cap);
Irssi::signal_add_first('event join', \&on_join_line);
Irssi::signal_add_first('event batch', \&on_batch);
Irssi::signal_add_first('event chathistory', \&on_chathistory);
Irssi::signal_add_first('event fail', \&on_fail);
Irssi::signal_add_first('event markread', \&on_markread);
Irssi::signal_add_first('server event tags', \&on_line);
Irssi::signal_add_first('event privmsg', sub { on_private('message own_private', @_) });
Irssi::signal_add_first('event notice', sub { on_private('message irc own_notice', @_) });
Irssi::signal_add('event 005', \&on_welcome);
Irssi::signal_add_last('event join', \&on_join);
Irssi::signal_add('server disconnected', \&on_gone);
Irssi::signal_add('message own_public', \&on_typed);
Irssi::signal_add('message own_private', \&on_typed);
Irssi::signal_add('message irc own_action', \&on_typed_action);
Irssi::signal_add('message irc own_notice', \&on_typed);
Irssi::signal_add('window changed', \&on_window);
Irssi::command_bind('bnc_history', \&on_command);
Irssi::timeout_add($BncHistory::Moment::MINUTE, \&on_minute, undef);
