"""The papers' sentences, and the comments that quote them."""

SAYS = {
    "F1": "any event, session open: time minus the later of the opening and the latest Power_Modules_Status in this "
          "session is above W",
    "F2": "any event, once a controller status was accepted: time minus its latest is above 200 ms",
    "F3": "DC_Power_Control: contactors Close, no session open",
    "F4": "DC_Power_Control: insulation test, precharge or power transfer, no session open",
    "F5": "the same functions, session open, and its latest Power_Modules_Status is none or Not_Allowed",
    "F6": "Lowering with a function other than standby, or with any DC_Power_Control signal in Volts or Amps not 0",
    "F7": "DC_Power_Control, function not off: Target_Voltage above the voltage limit",
    "F8": "Power_Modules_Status, session open: current above the charge limit, or below minus the discharge limit",
    "F9": "session open whose latest DC_Power_Control is precharge or power transfer: [...] raw insulation times 200 "
          "is below raw voltage",
    "F10": "New_Charge_Session while open with another protocol or plug than the session's first",
    "F11": "Charge_Session_Finished with none open",
    "R1": "channel above 31, or held by no post",
    "R2": "time earlier than that post's latest accepted frame or tick",
    "R3": "identifier not in the table",
    "R5": "a label signal holds a number without a label",
    "R6": "a bit that no signal covers is 1",
    "R11": "channel held by another post",
    "R12": "a post limit outside its range",
    "R14": "post not set up",
}

SAYS_02 = {
    "R9": "Refusal 9 now begins at 16",
    "R4": "4 when too short",
    "R15": "15 when too long",
    "F9 yes/no": "For a yes/no sensor F9's insulation test is raw 0 and nothing else",
    "F1 unrolled": "F1 and F2 read unrolled times, the sum of accepted differences, and never come round",
    "F2 unrolled": "F1 and F2 read unrolled times, the sum of accepted differences, and never come round",
    "F4 older": "Insulation_Test, Precharge and Charging_Loop count as the three functions",
    "F8 older": "Power_Modules_Limits sets the voltage and charge limits",
    "F9 older": "Insulation_Test, Precharge and Charging_Loop count as the three functions, the latest of them standing "
                "for DC_Power_Control",
    "F12": "F12 is a DC_Power_Control with insulation test, precharge or power transfer in a session after an "
           "Emergency_Stop accepted in it",
    "F12 older": "Insulation_Test, Precharge and Charging_Loop count as the three functions, the latest of them standing "
                 "for DC_Power_Control",
    "R12 older": "Set-up names a post's interface",
    "R29": "A frame whose identifier only the other interface has gets, on that post, a refusal number of its own in "
           "3's place, never a message",
    "R2 wrapped": "a time is earlier than the latest when the wrapped difference is 2^31 or more",
}


def told(mark, what, events=None, case=""):
    """The comment that announces a finding or a refusal, for one step or for a run of events; `case` where 02 has a
    sentence for one case of that number."""
    run = "" if events is None else f" from here for {events} events"
    number, _, start = mark.partition(":")
    sentence = f"{number} {case}" if case else number
    quoted = f'02: "{SAYS_02[sentence]}"' if sentence in SAYS_02 else f'01: "{SAYS[sentence]}"'
    signal = f", and that signal starts at bit {start}" if start else ""
    return f"# {mark}{run}: {what} {quoted}{signal}."
