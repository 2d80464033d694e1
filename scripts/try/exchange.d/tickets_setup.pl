# Makes, in the RT of RT_SITE_CONFIG, the queue "reports" to which everybody may write, and three users: the one that drafts, one that doesn't
# see its own comments, and Ada. Prints each name with a token.
use strict;
use warnings;
use lib '/usr/share/request-tracker5/lib';
use RT -init;

sub done { my ($is_so, $why) = @_; die $why // 'refused' unless $is_so }

my $queue = RT::Queue->new(RT->SystemUser);
done($queue->Create(Name => 'reports', CorrespondAddress => 'reports@rt.example.org'));
my $everyone = RT::Group->new(RT->SystemUser);
done($everyone->LoadSystemInternalGroup('Everyone'));
done($everyone->PrincipalObj->GrantRight(Right => $_, Object => $queue)) for qw(CreateTicket ReplyToTicket);
my @drafting = qw(SeeQueue ShowTicket CommentOnTicket);
for (['iodef-drafts', '', @drafting, 'ShowTicketComments'], ['iodef-blind', '', @drafting],
     ['ada', 'ada@csirt.example.com', @drafting, 'ShowTicketComments']) {
    my ($name, $mail, @rights) = @$_;
    my $user = RT::User->new(RT->SystemUser);
    done($user->Create(Name => $name, Privileged => 1, $mail ? (EmailAddress => $mail) : ()));
    done($user->PrincipalObj->GrantRight(Right => $_, Object => $queue)) for @rights;
    done($user->PrincipalObj->GrantRight(Right => 'ManageAuthTokens', Object => RT->System));
    my (undef, $why, $token) = RT::AuthToken->new(RT::CurrentUser->new($user))->Create(Owner => $user->Id, Description => 'drafts');
    done($token, $why);
    print "$name $token\n";
}
