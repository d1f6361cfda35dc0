"""The traffic of a post, cycle by cycle, and a night that holds several."""

from pages import *

# after so many ms the gateway's clock starts over
ROUND = 2**32


def shown(time):
    """What the gateway's clock shows."""
    return time % ROUND


class Night:
    def __init__(self, name, *title):
        self.name = name
        self.title = title
        self.steps = []

    def at(self, time, step, *comments):
        self.steps.append((time, len(self.steps), comments, step))

    def text(self):
        """All posts' steps in the order of the clock on the wall; what is said of a step stays with it."""
        lines = [f"# {line}" for line in self.title]
        for _, _, comments, step in sorted(self.steps, key=lambda entry: entry[:2]):
            lines.extend(comments)
            lines.append(step)
        return "\n".join(lines) + "\n"


class Post:
    """The traffic of one post. A cycle is 100 ms: controller status at its start, then the other periodic messages."""

    # What a post of this interface is told, by whom its messages are described, and how it says that nothing is asked.
    interface = None
    document = "000"
    identifiers = dict(status=STATUS, new=NEW_SESSION, modules=PMS, vehicle=EV_ID, change=CHANGE, finished=FINISHED,
                       stop=STOP)
    off = dict(function=OFF)

    def __init__(self, night, number, channel, time, phase=0):
        self.night, self.number, self.channel = night, number, channel
        self.time = time + phase
        self.volt, self.amps, self.enable, self.insulation = 0, 0, 0, 255
        self.vehicle = None
        self.remarks = ()

    def set_up(self, volt=5000, charge=2000, discharge=500, silence=500, sensor=None, comments=()):
        """A set-up that says nothing of the sensor means a measuring one, and one without an interface the newer."""
        limits = [volt, charge, discharge, silence] + ([] if sensor is None else [sensor])
        if self.interface is not None:
            limits = [*limits, *([0] if sensor is None else []), self.interface]
        self.night.at(self.time - 50, f"setup {self.number} {self.channel} {' '.join(map(str, limits))}", *comments)

    def frame(self, after, identifier, payload, *comments, form="x"):
        time = self.time + after
        self.night.at(time, f"frame {self.channel} {shown(time)} {identifier} {form} {payload}", *comments)

    def tick(self, after, *comments):
        time = self.time + after
        self.night.at(time, f"tick {self.channel} {shown(time)}", *comments)

    def record(self, after=-1):
        self.night.at(self.time + after, f"record {self.number}")

    def say(self, *lines):
        """A remark before the next cycle."""
        self.remarks += tuple(f"# {line}" for line in lines)

    def remarked(self, comments):
        remarks, self.remarks = self.remarks, ()
        return (*remarks, *comments)

    def press(self, after, origin, *comments):
        """An Emergency_Stop."""
        self.frame(after, self.identifiers["stop"], byte(origin), *self.remarked(comments))

    def opening(self, protocol, plug):
        return byte(protocol) + byte(plug)

    def command(self, **control):
        """The identifier and the payload of what the controller asks for."""
        return CONTROL, control_bytes(**control)

    def cycle(self, state, new=None, modules=False, control=None, status=True, tick=False, notes=None):
        """One cycle; `notes` has comments for the step of that name."""
        notes = notes or {}

        def of(part):
            found = notes.get(part, ())
            return self.remarked((found,) if isinstance(found, str) else found)

        if status:
            self.frame(0, self.identifiers["status"], byte(state), *of("status"))
        if new is not None:
            self.frame(10, self.identifiers["new"], self.opening(*new), *of("new"))
        if modules:
            status = status_bytes(self.volt, self.amps, self.enable, self.insulation)
            self.frame(20, self.identifiers["modules"], status, *of("modules"))
        if control is not None:
            self.frame(30, *self.command(**control), *of("control"))
        if self.vehicle and (self.time // 100) % 10 == 5:
            self.frame(40, self.identifiers["vehicle"], self.vehicle, *of("vehicle"))
        if tick:
            self.tick(70, *of("tick"))
        self.time += 100

    def idle(self, cycles, state=WAITING):
        """The power modules may sleep now (000), the controller speaks on."""
        for n in range(cycles):
            self.cycle(state, tick=n % 5 == 4)

    def plug_in(self, protocol=ISO_2013, plug=DC_EXTENDED, vehicle="0a1b2c3d4e5f"):
        self.say(f"post {self.number}: a car is plugged in")
        for _ in range(4):
            self.cycle(NEGOTIATING)
        if protocol == ISO_2013:
            for _ in range(2):
                self.cycle(AUTHORISING)
        self.vehicle = vehicle
        self.say(f"post {self.number}: New_Charge_Session, each 100 ms until the power modules answer Allowed "
                 f"({self.document})")
        self.enable = 0
        self.cycle(FULL_INFO, new=(protocol, plug))
        for _ in range(3):
            self.cycle(FULL_INFO, new=(protocol, plug), modules=True)
        self.enable = 1
        self.cycle(FULL_INFO, new=(protocol, plug), modules=True)

    def insulation_test(self, target=5000):
        self.say(f"post {self.number}: insulation test at {target // 10} V, the contactors of the charger closed")
        control = dict(function=INSULATION_TEST, target=target, contactors=CLOSE)
        for part in (0, 0, 1, 2, 3, 4, 4, 4):
            self.volt = target * part // 4
            self.cycle(INSULATING, modules=True, control=control)
        self.say(f"post {self.number}: the voltage is lowered to 20 V or less before precharge (000)")
        lower = dict(function=STANDBY, contactors=CLOSE, lowering=1)
        for part in (8, 4, 2, 1):
            self.volt = target * part // 10 // 4
            self.cycle(INSULATING, modules=True, control=lower)
        self.volt = 150
        self.cycle(INSULATING, modules=True, control=lower)

    def precharge(self, battery=3850, weak=None):
        """`weak` is told of the fifth status, which then reports 20 kOhm only."""
        self.say(f"post {self.number}: precharge up to the battery's {battery // 10} V, at most 2 A")
        control = dict(function=PRECHARGE, target=battery, most=20, mode=RANGE_MODE, contactors=CLOSE)
        for n, part in enumerate((0, 1, 2, 3, 4, 5, 5, 5)):
            self.volt = max(150, battery * part // 5)
            self.amps = 15 if 0 < part < 5 else 0
            poor = weak is not None and n == 4
            self.insulation = 10 if poor else 255
            self.cycle(PRECHARGING, modules=True, control=control, notes={"modules": weak} if poor else None)
        self.amps = 0

    def start_charge(self, battery=3850):
        self.say(f"post {self.number}: the vehicle is ready")
        control = dict(function=PRECHARGE, target=battery, most=20, mode=RANGE_MODE, contactors=CLOSE)
        self.frame(5, self.identifiers["change"], byte(1))
        for _ in range(2):
            self.cycle(WAITING_FOR_CHARGE, modules=True, control=control)

    def wish(self, amps, target=4200):
        """What the vehicle asks for in target mode: both ends of the range are the same (000)."""
        return dict(function=POWER_TRANSFER, target=target, most=amps, least=amps, contactors=CLOSE)

    def ramp(self, wanted, step=250, state=CHARGING, **more):
        while self.amps != wanted:
            self.amps += max(-step, min(step, wanted - self.amps))
            self.volt += 5 if self.amps > 0 else -5
            self.cycle(state, modules=True, control=self.wish(wanted), **more)

    def transfer(self, cycles, wanted, **more):
        for n in range(cycles):
            self.volt += n % 3 == 0
            self.cycle(CHARGING, modules=True, control=self.wish(wanted), tick=n % 10 == 9, **more)

    def end_charge(self):
        self.say(f"post {self.number}: the vehicle stops; the current comes down")
        self.frame(5, self.identifiers["change"], byte(0))
        self.ramp(0, step=400, state=ENDING)
        self.say(f"post {self.number}: below 1 A the contactors open and the voltage is lowered (000)")
        for part in (8, 5, 3):
            self.volt = self.volt * part // 10
            self.cycle(ENDING, modules=True, control=dict(function=STANDBY, lowering=1))
        self.say(f"post {self.number}: welding detection")
        for _ in range(4):
            self.volt = self.volt // 2
            self.cycle(WELDING, modules=True, control=dict(function=STANDBY))

    def close(self, stop=CLEAN_STOP, notes=()):
        self.say(f"post {self.number}: the session ends")
        self.cycle(CLOSING, modules=True, control=self.off)
        self.frame(5, self.identifiers["finished"], byte(stop), *self.remarked(notes))
        self.vehicle, self.enable, self.volt, self.amps = None, 0, 0, 0
        self.cycle(CLOSING)
