"""The night of a full depot, and the night in which channels change hands: what happens, and what is said of it."""

from older import OlderPost
from pages import *
from says import told
from traffic import Night, Post

POSTS = range(16)

# The posts with a car; the others are set up and nothing speaks there yet, so that only the gateway's ticks come.
CHARGING_POSTS = (0, 3, 5, 9, 12, 15)


def channel_of(number):
    """Post 0 is on the last channel, and between two of them one is nobody's."""
    return 31 - 2 * number


def sixteen():
    night = Night("sixteen",
                  "A full depot: posts 0 to 15, on channel 31 and down to channel 1, every other channel nobody's.",
                  "A car charges at six of them, at post 3 and post 15 with an older controller; ticks come at each.")
    posts = [(OlderPost if number in (3, 15) else Post)(night, number, channel_of(number), 2000 + 200 * number, number)
             for number in POSTS]
    night.at(1000, "index", "# nobody is set up yet: no channel has a post")
    for post in posts:
        post.set_up()
    night.at(4920, "setup 15 31 5000 2000 500 500 0 1",
             told("R11", "Post 15: the fitter reads the sheet from the wrong end; channel 31 is post 0's."))
    night.at(4970, "index", "# all sixteen: post 0 on channel 31, and post 15 on channel 1")
    night.at(4971, "setup 16 0 5000 2000 500 500", told("R9", "A seventeenth post on the sheet, by the number 16."))
    night.at(4972, "tick 0 4972", told("R1", "And the gateway ticks on its channel."))
    for post in posts:
        charge(post) if post.number in CHARGING_POSTS else wait(post)
    end = max(post.time for post in posts)
    night.at(end + 10, "index", "# whatever was heard, the same posts hold the same channels")
    night.at(end + 11, "release 16", told("R9", "There is no seventeenth post to release."))
    night.at(end + 12, "record 16", told("R9", "Nor is there one to look up."))
    night.at(end + 13, "refused", "# the tick on channel 0; a refused set-up, release or look-up does not count")
    return night


def charge(post):
    post.idle(2)
    post.plug_in(vehicle=f"0000000000{post.number:02x}")
    weak = told("F9", f"Post {post.number}, channel {post.channel}: 20 kOhm at 308.0 V under precharge.")
    post.precharge(weak=weak if post.number in (9, 15) else None)
    post.record()
    post.start_charge()
    post.say(f"post {post.number}: power transfer")
    post.ramp(750)
    post.transfer(3, 750)
    post.end_charge()
    post.close()
    post.idle(1)
    post.record()


def wait(post):
    for _ in range(8):
        post.tick(70)
        post.time += 500
    post.record()


def moved():
    night = Night("moved",
                  "Channels change hands: a post moves to another one, a second post takes what it left, a third is",
                  "released. The index names whoever holds a channel now, and what comes on one that was left goes to nobody.")
    first = Post(night, 0, 4, 2000)
    beside = Post(night, 1, 5, 2000, 3)
    for post in (first, beside):
        post.set_up()
        post.idle(3)
    night.at(first.time, "index", "# post 0 on channel 4, post 1 on channel 5")
    first.time += 100
    first.frame(-90, STATUS, byte(WAITING))
    first.record(-80)
    move(night, first, 9)
    taken(night, first)
    released(night, beside)
    night.at(beside.time + 100, "setup 0 9 5000 2000 500 500",
             "# post 0 once more on its own channel: the index stays, and its history is empty")
    night.at(beside.time + 101, "index")
    night.at(beside.time + 102, "record 0")
    night.at(beside.time + 103, "refused", "# what came on the channels that were left")
    return night


def move(night, post, channel):
    """The cable of post 0 goes to another channel; its controller is heard on the old one for a moment."""
    left, post.channel = post.channel, channel
    post.set_up(comments=(f"# post 0: set up again, now on channel {channel}",))
    night.at(post.time - 40, "index", f"# channel {left} is nobody's")
    night.at(post.time - 30, f"frame {left} {post.time - 30} {STATUS} x {byte(WAITING)}",
             told("R1", f"The controller's last status on channel {left}, which post 0 has left."))
    night.at(post.time - 20, f"tick {left} {post.time - 20}", told("R1", "Nor does a tick go anywhere."))
    post.idle(2)
    post.record(-20)


def taken(night, post):
    """Post 14 takes the channel that post 0 has left; what is heard there is no longer post 0's."""
    taker = Post(night, 14, 4, post.time + 100)
    night.at(taker.time - 80, "setup 1 9 5000 2000 500 500",
             told("R11", "Post 1: channel 9 is post 0's now."))
    night.at(taker.time - 70, "setup 14 4 5000 2000 500 50", told("R12", "Post 14: W under 100 ms."))
    night.at(taker.time - 60, "index", "# refused set-ups move nobody")
    taker.set_up(comments=("# post 14: on channel 4, which post 0 had before",))
    night.at(taker.time - 40, "index")
    taker.idle(3)
    taker.record(-20)
    night.at(taker.time - 10, "record 0", "# post 0 has heard nothing of it")
    post.time = taker.time


def released(night, post):
    """Post 1 is released, and post 15 has its channel."""
    post.time = post.time + 1200
    night.at(post.time, "release 1", "# post 1 is taken out of service")
    night.at(post.time + 1, "index")
    night.at(post.time + 2, f"tick 5 {post.time + 2}", told("R1", "Its channel is nobody's."))
    night.at(post.time + 3, "record 1", told("R14", "Its record is gone."))
    night.at(post.time + 4, "release 1", told("R14", "Released twice."))
    night.at(post.time + 5, "index", "# a refused release moves nobody")
    last = Post(night, 15, 5, post.time + 100)
    last.set_up(comments=("# post 15: on channel 5, where its own clock begins",))
    night.at(last.time - 40, "index")
    last.idle(2)
    last.record(-20)
    post.time = last.time
