"""The night in which the gateway's clock comes round: what happens, and what is said of it."""

from pages import *
from says import told
from traffic import ROUND, Night, Post, shown


def coming_round():
    """02: "At 49.7 days a 32-bit millisecond count starts over, and refusal 2 then locks the post". It no longer does."""
    night = Night("round",
                  "The gateway's clock comes round while two cars charge: it shows 4294967295, and a millisecond later 0.",
                  "Both sessions go on; silences that begin before the round are found behind it, and only then.")
    modules = Post(night, 0, 6, ROUND - 4750)
    modules.set_up(silence=300)
    controller = Post(night, 1, 7, ROUND - 4650, phase=4)
    controller.set_up()
    for post in (modules, controller):
        post.idle(3)
        post.plug_in(vehicle=None)
        post.insulation_test()
        post.precharge()
        post.start_charge()
        post.ramp(1000)
        post.transfer(5, 1000)
        post.record()

    modules.say("post 0: the power modules fall silent before the round; W is 300 ms, counted from their latest status")
    for _ in range(2):
        modules.cycle(CHARGING, control=modules.wish(1000))
    modules.say("post 0: the round; 280 ms of silence by now are not above W")
    modules.cycle(CHARGING, control=modules.wish(1000), tick=True, notes={
        "control": told("F1", "Post 0: 310 ms without a Power_Modules_Status, and more, until one came, that one "
                              "included.", events=4, case="unrolled")})
    modules.record()
    modules.cycle(CHARGING, modules=True, control=modules.wish(1000))

    controller.say("post 1: the controller status stays away from before the round on; 200 ms are allowed")
    controller.cycle(CHARGING, status=False, modules=True, control=controller.wish(1000))
    controller.cycle(CHARGING, status=False, modules=True, control=controller.wish(1000), notes={
        "modules": told("F2", "Post 1: 220 ms after the latest controller status, until a new one came, that one "
                              "included.", events=3, case="unrolled")})
    controller.record()
    controller.cycle(CHARGING, modules=True, control=controller.wish(1000))

    modules.say("post 0: the gateway hands in what it had kept back")
    late = shown(ROUND - 30)
    night.at(modules.time + 1, f"frame 6 {late} {STATUS} x {byte(CHARGING)}", *modules.remarked((
        told("R2", f"Post 0: a status of before the round, {late}, is too late now.", case="wrapped"),)))
    modules.tick(5)
    half = shown(modules.time + 5 + ROUND // 2)
    night.at(modules.time + 6, f"tick 6 {half}",
             told("R2", f"Post 0: {half} is half a round from the latest time, later as well as earlier.",
                  case="wrapped"))
    modules.cycle(CHARGING, modules=True, control=modules.wish(1000))
    for post in (modules, controller):
        post.transfer(6, 1000)
        post.end_charge()
        post.close()
        post.record()
        post.idle(3)
    night.at(controller.time + 1, "refused", "# the two steps of before the round and of half a round from it")
    return night
