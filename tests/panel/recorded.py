"""What a card has to say, made of the desk's `record` of that post and of the maker's documents."""
import re

from documents import PAGES, tenths, words
from report.clock import lasting, told


class Message:
    """`63000x:4000,-125,25,-40,1,200@20+380`"""

    def __init__(self, text, yes_no):
        self.key, values, self.time, self.age = re.fullmatch(r'([0-9a-f]+[sx]):([-0-9,]+)@(\d+)\+(\d+)', text).groups()
        self.time, self.age = int(self.time), int(self.age)
        self.name, signals = PAGES[self.key]
        self.numbers = {signal[0]: int(value) for signal, value in zip(signals, values.split(','), strict=True)}
        self.values = [[signal[0], words(signal, int(value), yes_no)] for signal, value in zip(signals, values.split(','), strict=True)]

    def head(self):
        form = 'standard' if self.key[-1] == 's' else 'extended'
        return f'{self.name}, {form} {self.key[:-1]}: {told(self.time)}, {lasting(self.age)} old'

    def said(self, signal):
        return dict(self.values)[signal]


class Record:
    def __init__(self, line):
        self.fields = dict(part.split('=', 1) for part in line.removeprefix('K ').split(' '))
        self.yes_no = self.fields['sensor'] == '1'
        self.older = self.fields.get('iface') == '1'
        self.messages = {each.name: each for each in map(self.message, self.fields['latest'].split(';')) if each}

    def message(self, text):
        return None if text == '-' else Message(text, self.yes_no)

    def number(self, name):
        return int(self.fields[name])

    def last(self):
        return None if self.fields['last'] == '-' else self.number('last')

    def when(self, name):
        time, age = self.fields[name].split('+')
        return int(time), int(age)

    def limits(self):
        return [['Voltage limit', tenths(self.number('volt')) + ' V'], ['Charge limit', tenths(self.number('chg')) + ' A'],
                ['Discharge limit', tenths(self.number('dis')) + ' A'], ['W', f'{self.fields["w"]} ms'], ['Sensor', 'yes/no' if self.yes_no else 'measuring'],
                ['Controller', 'older, document 001' if self.older else 'newer, document 000']]

    def session(self):
        """Its line and what stands below."""
        if self.fields['open'] == '0':
            return 'No session open', ''
        (since, age), (protocol, plug) = self.when('since'), map(int, self.fields['first'].split(','))
        _, signals = PAGES['6b001x']
        within = [f'{kept.name} {told(kept.time)}, {lasting(kept.age)} old' if kept else f'no {name} yet'
                  for kept, name in ((self.message(self.fields['spms']), 'power modules status'), (self.message(self.fields['sdpc']), 'power control'))]
        if stop := self.message(self.fields['sstop']):
            within.append(f'{stop.name} {told(stop.time)}, {lasting(stop.age)} old')
        return f'Session open since {told(since)} ({lasting(age)}): {signals[0][3][protocol]}, {signals[1][3][plug]}', f'In it: {"; ".join(within)}'

    def tallies(self):
        return [[f'F{k}', int(count)] for k, count in enumerate(self.fields['tally'].split(','), 1)]

    def readings(self):
        """The rows of the charge controller and the power modules: name, value, note, age, marked."""
        rows = []

        def row(message, name, value, note='', marked=False):
            rows.append([name, value, note, f'{lasting(message.age)} old', marked])

        if status := self.messages.get('Power_Modules_Status'):
            volt, kohm = status.numbers['Present_Voltage'], status.numbers['Insulation_Resistance']
            row(status, 'Voltage', status.said('Present_Voltage'))
            row(status, 'Current', status.said('Present_Current'))
            # 01: under 100 Ohm per volt; volts are tenths, so that a hundredth of their number is the limit in kOhm
            row(status, 'Insulation', status.said('Insulation_Resistance'), *(('yes/no sensor', kohm == 0) if self.yes_no else
                                                                             (f'limit {volt // 100}.{volt % 100:02} kOhm at {tenths(volt)} V', kohm * 100 < volt)))
            row(status, 'Power modules', status.said('Power_Modules_Temperature'))
            row(status, 'Enclosure', status.said('Enclosure_Temperature'))
            row(status, 'System enable', status.said('System_Enable'))
        if control := self.messages.get('DC_Power_Control'):
            row(control, 'Function', control.said('Power_Function'))
            row(control, 'Contactors', control.said('Output_Contactors'))
            row(control, 'Target voltage', control.said('Target_Voltage'))
            row(control, 'Current range', f'{control.said("Current_Range_Min")} to {control.said("Current_Range_Max")}')
            row(control, 'Lowering', control.said('Lower_Output_Voltage'))
        if self.older and (asked := self.asked()):
            row(asked, 'Function', asked.name)
            for name in ('Target_Voltage', 'Test_Voltage', 'Target_Current', 'Maximum_Current', 'State_of_Charge'):
                if name in asked.numbers:
                    row(asked, name.replace('_', ' ').capitalize(), asked.said(name))
        if battery := self.messages.get('EV_Information_Battery'):
            row(battery, 'State of charge', battery.said('Present_State_of_Charge'), f'of {battery.said("Battery_Capacity")}')
        if controller := self.messages.get('Advantics_Controller_Status'):
            row(controller, 'Controller', controller.said('State'))
        if stop := self.messages.get('Emergency_Stop'):
            row(stop, 'Emergency stop', stop.said('Origin'), told(stop.time), self.fields['sstop'] != '-')
        return rows

    def asked(self):
        """The function of an older controller: that of the session, else the latest."""
        if kept := self.message(self.fields['sdpc']):
            return kept
        known = [self.messages[name] for name in ('Insulation_Test', 'Precharge', 'Charging_Loop') if name in self.messages]
        return min(known, key=lambda message: message.age, default=None)


    def safety(self):
        """The rows of a safety controller."""
        rows = []

        def row(message, name, value, faults, note=''):
            rows.append([name, value, ', '.join([*([note] if note else []), *faults]), f'{lasting(message.age)} old', bool(faults)])

        def told_of(message, signals):
            return [words for signal, words in signals.items() if message.numbers[signal] == 1]

        if control := self.messages.get('ChargeControl1'):
            asked = told_of(control, {'CC_PWM_Active': 'PWM active', 'CC_Contactor1State': 'contactor 1 closed', 'CC_Contactor2State': 'contactor 2 closed'})
            row(control, 'Asked of it', f'{tenths(min(control.numbers["CC_TargetDutyCycle"], 1000))} %', [], ', '.join(asked))
        if state := self.messages.get('ChargeState1'):
            active = 'active' if state.numbers['CS_PWM_Active'] else 'not active'
            row(state, 'Control pilot', state.said('CS_CurrentCpState'), told_of(state, {'CS_CpShortCircuit': 'short circuit', 'CS_DiodeFault': 'diode fault'}),
                f'{state.said("CS_CurrentDutyCycle")}, PWM {active}')
            row(state, 'Proximity', state.said('CS_CurrentPpState'), [])
            for k in (1, 2):
                row(state, f'Contactor {k}', 'closed' if state.numbers[f'CS_Contactor{k}State'] else 'open', told_of(state, {f'CS_Contactor{k}Error': 'error'}))
            stops = told_of(state, {**{f'CS_Estop{k}ChargingAbort': f'stop {k}' for k in (1, 2, 3)},
                                    'CS_ImdRcmChargingAbort': 'insulation or residual current (IMD, RCM)', 'CS_ImdRcmTestFailure': 'IMD or RCM test failure'})
            rows.append(['Emergency stops', ', '.join(stops) or 'none', '', f'{lasting(state.age)} old', bool(stops)])
        if probes := self.messages.get('PT1000State'):
            for k in (1, 2, 3, 4):
                row(probes, f'Probe {k}', probes.said(f'PT{k}_Temperature'),
                    told_of(probes, {f'PT{k}_ChargingStopped': 'charging stopped', f'PT{k}_SelftestFailed': 'self-test failed'}))
        return rows


def held(test, card, line, found):
    """A card against the desk's `record` of its post and what was found on it: every number, but how long ago it was last heard."""
    post = f'{card["number"]}: '
    if line == 'R14':
        test.assertEqual((card['channel'], card['heard'], card['state']), ('No channel', 'Not set up', 'none'), post)
        return
    record = Record(line)
    test.assertEqual(card['channel'], f'Channel {record.fields["ch"]}', post)
    test.assertEqual(card['limits'], record.limits(), post)
    test.assertEqual((card['session'], card['within']), record.session(), post)
    test.assertEqual((card['tally_head'], card['tallies']), (f'Findings among {record.fields["n"]} accepted', record.tallies()), post)
    test.assertEqual((card['each'], card['finding']), (found.lines(record.tallies()), found.box(record.last())), post)
    test.assertEqual({head: values for head, values in card['messages']}, {each.head(): each.values for each in record.messages.values()}, post)
    test.assertEqual(card['readings'], record.readings(), post)
    test.assertEqual(card['safety'], record.safety(), post)
    test.assertNotIn('819.1', str(card), post)
    latest = min(record.messages.values(), key=lambda message: message.age, default=None)
    if record.last() is None:
        test.assertEqual((card['heard'], card['when']), ('Never heard', ''), post)
    else:
        frame = f'latest frame {told(latest.time)}' if latest else 'no frame'
        test.assertEqual(card['when'], f'As of {told(record.last())}; {frame}', post)
