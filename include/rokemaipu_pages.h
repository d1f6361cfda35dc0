/* The maker's pages (documents 000, 004 and 001), for whoever has raw numbers: rokemaipu_read puts them into these places, and rokemaipu_write takes
 * them from there, in the order of the page. An enum for each message has the places of its signals, with what 1 stands for; an enum for
 * each signal with labels has the labels' numbers, and any other number in that signal gets refusal 5. Included by rokemaipu.h. */
#ifndef ROKEMAIPU_PAGES_H
#define ROKEMAIPU_PAGES_H

/* Power_Modules_Status: extended 0x63000, 8 bytes */
enum rokemaipu_power_modules_status {
    ROKEMAIPU_PRESENT_VOLTAGE = 0,           /* 0.1 V */
    ROKEMAIPU_PRESENT_CURRENT = 1,           /* 0.1 A, signed */
    ROKEMAIPU_POWER_MODULES_TEMPERATURE = 2, /* °C plus 40 */
    ROKEMAIPU_ENCLOSURE_TEMPERATURE = 3,     /* °C plus 40 */
    ROKEMAIPU_SYSTEM_ENABLE = 4,             /* of rokemaipu_system_enable */
    ROKEMAIPU_INSULATION_RESISTANCE = 5      /* 2 kOhm; with a yes/no sensor 255 is Valid, 0 Invalid */
};
enum rokemaipu_system_enable {
    ROKEMAIPU_SYSTEM_ENABLE_NOT_ALLOWED = 0,
    ROKEMAIPU_SYSTEM_ENABLE_ALLOWED = 1
};

/* DC_Power_Parameters: extended 0x63001, 8 bytes */
enum rokemaipu_dc_power_parameters {
    ROKEMAIPU_MAXIMUM_VOLTAGE = 0,           /* 0.1 V */
    ROKEMAIPU_MAXIMUM_CHARGE_CURRENT = 1,    /* 0.1 A */
    ROKEMAIPU_MAXIMUM_DISCHARGE_CURRENT = 2, /* 0.1 A */
    ROKEMAIPU_RANGE_TARGET_CURRENT = 3       /* 0.1 A, signed */
};

/* Advantics_Controller_Status: extended 0x6b000, 1 byte */
enum rokemaipu_controller_status {
    ROKEMAIPU_CONTROLLER_STATE = 0 /* of rokemaipu_controller_state */
};
enum rokemaipu_controller_state {
    ROKEMAIPU_CONTROLLER_STATE_INITIALISING = 0,
    ROKEMAIPU_CONTROLLER_STATE_WAITING_FOR_PEV = 1,
    ROKEMAIPU_CONTROLLER_STATE_NEGOTIATING_CONNECTION = 2,
    ROKEMAIPU_CONTROLLER_STATE_CONNECTED_WITH_FULL_INFO = 3,
    ROKEMAIPU_CONTROLLER_STATE_INSULATION_TEST = 4,
    ROKEMAIPU_CONTROLLER_STATE_PRECHARGE = 5,
    ROKEMAIPU_CONTROLLER_STATE_WAITING_FOR_CHARGE = 6,
    ROKEMAIPU_CONTROLLER_STATE_CHARGING = 7,
    ROKEMAIPU_CONTROLLER_STATE_ENDING_CHARGE = 8,
    ROKEMAIPU_CONTROLLER_STATE_WELDING_DETECTION = 9,
    ROKEMAIPU_CONTROLLER_STATE_CLOSING_COMMUNICATION = 10,
    ROKEMAIPU_CONTROLLER_STATE_CCS_AUTHORISATION_PROCESS = 11,
    ROKEMAIPU_CONTROLLER_STATE_NOT_AVAILABLE = 12,
    ROKEMAIPU_CONTROLLER_STATE_CHARGE_PAUSE = 13
};

/* New_Charge_Session: extended 0x6b001, 2 bytes */
enum rokemaipu_new_charge_session {
    ROKEMAIPU_COMMUNICATION_PROTOCOL = 0, /* of rokemaipu_communication_protocol */
    ROKEMAIPU_PLUG_AND_PINS = 1           /* of rokemaipu_plug_and_pins */
};
enum rokemaipu_communication_protocol {
    ROKEMAIPU_COMMUNICATION_PROTOCOL_CCS_DIN_70121_2012_V2 = 0,
    ROKEMAIPU_COMMUNICATION_PROTOCOL_CCS_ISO_15118_2010_V1 = 1,
    ROKEMAIPU_COMMUNICATION_PROTOCOL_CCS_ISO_15118_2013_V2 = 2,
    ROKEMAIPU_COMMUNICATION_PROTOCOL_CHADEMO_V0_9 = 3,
    ROKEMAIPU_COMMUNICATION_PROTOCOL_CHADEMO_V1_0_V1_1_V1_2 = 4,
    ROKEMAIPU_COMMUNICATION_PROTOCOL_CHADEMO_V2_0 = 5,
    ROKEMAIPU_COMMUNICATION_PROTOCOL_CCS_PWM = 6,
    ROKEMAIPU_COMMUNICATION_PROTOCOL_CCS_ISO_15118_2022 = 7
};
enum rokemaipu_plug_and_pins {
    ROKEMAIPU_PLUG_AND_PINS_CCS_DC_CORE = 0,
    ROKEMAIPU_PLUG_AND_PINS_CCS_DC_EXTENDED = 1,
    ROKEMAIPU_PLUG_AND_PINS_CHADEMO = 2,
    ROKEMAIPU_PLUG_AND_PINS_CCS_AC = 3,
    ROKEMAIPU_PLUG_AND_PINS_MCS = 4
};

/* Charge_Status_Change: extended 0x6b002, 1 byte */
enum rokemaipu_charge_status_change {
    ROKEMAIPU_VEHICLE_READY_FOR_CHARGING = 0 /* of rokemaipu_vehicle_ready_for_charging */
};
enum rokemaipu_vehicle_ready_for_charging {
    ROKEMAIPU_VEHICLE_READY_FOR_CHARGING_CHARGE_STOPPED = 0,
    ROKEMAIPU_VEHICLE_READY_FOR_CHARGING_CHARGE_STARTED = 1
};

/* DC_Power_Control: extended 0x6b003, 7 bytes */
enum rokemaipu_dc_power_control {
    ROKEMAIPU_TARGET_VOLTAGE = 0,      /* 0.1 V */
    ROKEMAIPU_CURRENT_RANGE_MAX = 1,   /* 0.1 A, signed */
    ROKEMAIPU_CURRENT_RANGE_MIN = 2,   /* 0.1 A, signed */
    ROKEMAIPU_POWER_FUNCTION = 3,      /* of rokemaipu_power_function */
    ROKEMAIPU_RESERVED = 4,            /* 0 or 1 */
    ROKEMAIPU_SETPOINTS_MODE = 5,      /* of rokemaipu_setpoints_mode */
    ROKEMAIPU_OUTPUT_CONTACTORS = 6,   /* of rokemaipu_output_contactors */
    ROKEMAIPU_LOWER_OUTPUT_VOLTAGE = 7 /* of rokemaipu_lower_output_voltage */
};
enum rokemaipu_power_function {
    ROKEMAIPU_POWER_FUNCTION_OFF = 0,
    ROKEMAIPU_POWER_FUNCTION_STANDBY = 1,
    ROKEMAIPU_POWER_FUNCTION_INSULATION_TEST = 2,
    ROKEMAIPU_POWER_FUNCTION_PRECHARGE = 4,
    ROKEMAIPU_POWER_FUNCTION_POWER_TRANSFER = 8
};
enum rokemaipu_setpoints_mode {
    ROKEMAIPU_SETPOINTS_MODE_TARGET_MODE = 0,
    ROKEMAIPU_SETPOINTS_MODE_RANGE_MODE = 1
};
enum rokemaipu_output_contactors {
    ROKEMAIPU_OUTPUT_CONTACTORS_OPEN = 0,
    ROKEMAIPU_OUTPUT_CONTACTORS_CLOSE = 1
};
enum rokemaipu_lower_output_voltage {
    ROKEMAIPU_LOWER_OUTPUT_VOLTAGE_NO_LOWERING = 0,
    ROKEMAIPU_LOWER_OUTPUT_VOLTAGE_LOWERING = 1
};

/* Charge_Session_Finished: extended 0x6b004, 1 byte */
enum rokemaipu_charge_session_finished {
    ROKEMAIPU_FINISHED_STATE = 0 /* of rokemaipu_finished_state */
};
enum rokemaipu_finished_state {
    ROKEMAIPU_FINISHED_STATE_CLEAN_STOP = 0,
    ROKEMAIPU_FINISHED_STATE_RUSHED_STOP = 1
};

/* Emergency_Stop: extended 0x6b005, 1 byte */
enum rokemaipu_emergency_stop {
    ROKEMAIPU_STOP_ORIGIN = 0 /* of rokemaipu_stop_origin */
};
enum rokemaipu_stop_origin {
    ROKEMAIPU_STOP_ORIGIN_EVSE = 1,
    ROKEMAIPU_STOP_ORIGIN_PEV = 3
};

/* EV_ID_CCS_Part2_DIN: extended 0x6b105, 6 bytes */
enum rokemaipu_ev_id {
    ROKEMAIPU_EV_ID_BYTE0 = 0, /* 0 to 255 */
    ROKEMAIPU_EV_ID_BYTE1 = 1, /* 0 to 255 */
    ROKEMAIPU_EV_ID_BYTE2 = 2, /* 0 to 255 */
    ROKEMAIPU_EV_ID_BYTE3 = 3, /* 0 to 255 */
    ROKEMAIPU_EV_ID_BYTE4 = 4, /* 0 to 255 */
    ROKEMAIPU_EV_ID_BYTE5 = 5  /* 0 to 255 */
};

/* ChargeControl1: standard 6, 8 bytes */
enum rokemaipu_charge_control_1 {
    ROKEMAIPU_CC_TARGET_DUTY_CYCLE = 0, /* 0.1 %, to 1,023; what is above 1,000 the safety controller takes as 1,000 */
    ROKEMAIPU_CC_PWM_ACTIVE = 1,        /* 0 or 1 */
    ROKEMAIPU_CC_CONTACTOR1_STATE = 2,  /* 0 or 1 */
    ROKEMAIPU_CC_CONTACTOR2_STATE = 3   /* 0 or 1 */
};

/* ChargeState1: standard 7, 8 bytes */
enum rokemaipu_charge_state_1 {
    ROKEMAIPU_CS_CURRENT_DUTY_CYCLE = 0,      /* 0.1 %, to 1,023 */
    ROKEMAIPU_CS_PWM_ACTIVE = 1,              /* 0 or 1 */
    ROKEMAIPU_CS_CURRENT_CP_STATE = 2,        /* of rokemaipu_cs_current_cp_state */
    ROKEMAIPU_CS_CP_SHORT_CIRCUIT = 3,        /* 0 or 1 */
    ROKEMAIPU_CS_DIODE_FAULT = 4,             /* 0 or 1 */
    ROKEMAIPU_CS_CURRENT_PP_STATE = 5,        /* of rokemaipu_cs_current_pp_state */
    ROKEMAIPU_CS_CONTACTOR1_STATE = 6,        /* 0 or 1 */
    ROKEMAIPU_CS_CONTACTOR2_STATE = 7,        /* 0 or 1 */
    ROKEMAIPU_CS_CONTACTOR1_ERROR = 8,        /* 0 or 1 */
    ROKEMAIPU_CS_CONTACTOR2_ERROR = 9,        /* 0 or 1 */
    ROKEMAIPU_CS_ESTOP1_CHARGING_ABORT = 10,  /* 0 or 1 */
    ROKEMAIPU_CS_ESTOP2_CHARGING_ABORT = 11,  /* 0 or 1 */
    ROKEMAIPU_CS_ESTOP3_CHARGING_ABORT = 12,  /* 0 or 1 */
    ROKEMAIPU_CS_IMD_RCM_CHARGING_ABORT = 13, /* 0 or 1 */
    ROKEMAIPU_CS_IMD_RCM_TEST_FAILURE = 14    /* 0 or 1 */
};
enum rokemaipu_cs_current_cp_state {
    ROKEMAIPU_CS_CURRENT_CP_STATE_UNKNOWN = 0,
    ROKEMAIPU_CS_CURRENT_CP_STATE_A = 1,
    ROKEMAIPU_CS_CURRENT_CP_STATE_B = 2,
    ROKEMAIPU_CS_CURRENT_CP_STATE_C = 3,
    ROKEMAIPU_CS_CURRENT_CP_STATE_D = 4,
    ROKEMAIPU_CS_CURRENT_CP_STATE_E = 5,
    ROKEMAIPU_CS_CURRENT_CP_STATE_F = 6,
    ROKEMAIPU_CS_CURRENT_CP_STATE_INVALID = 7
};
enum rokemaipu_cs_current_pp_state {
    ROKEMAIPU_CS_CURRENT_PP_STATE_NO_CABLE_DETECTED = 0,
    ROKEMAIPU_CS_CURRENT_PP_STATE_13_A = 1,
    ROKEMAIPU_CS_CURRENT_PP_STATE_20_A = 2,
    ROKEMAIPU_CS_CURRENT_PP_STATE_32_A = 3,
    ROKEMAIPU_CS_CURRENT_PP_STATE_63_70_A = 4,
    ROKEMAIPU_CS_CURRENT_PP_STATE_TYPE1_CONNECTED = 5,
    ROKEMAIPU_CS_CURRENT_PP_STATE_TYPE1_CONNECTED_BUTTON_PRESSED = 6,
    ROKEMAIPU_CS_CURRENT_PP_STATE_ERROR = 7
};

/* PT1000State: standard 8, 8 bytes */
enum rokemaipu_pt1000_state {
    ROKEMAIPU_PT1_TEMPERATURE = 0,       /* 0.1 °C, signed, -8,192 to 8,191; 8,191 is a probe that is not used */
    ROKEMAIPU_PT1_CHARGING_STOPPED = 1,  /* 0 or 1 */
    ROKEMAIPU_PT1_SELFTEST_FAILED = 2,   /* 0 or 1 */
    ROKEMAIPU_PT2_TEMPERATURE = 3,       /* likewise */
    ROKEMAIPU_PT2_CHARGING_STOPPED = 4,  /* 0 or 1 */
    ROKEMAIPU_PT2_SELFTEST_FAILED = 5,   /* 0 or 1 */
    ROKEMAIPU_PT3_TEMPERATURE = 6,       /* likewise */
    ROKEMAIPU_PT3_CHARGING_STOPPED = 7,  /* 0 or 1 */
    ROKEMAIPU_PT3_SELFTEST_FAILED = 8,   /* 0 or 1 */
    ROKEMAIPU_PT4_TEMPERATURE = 9,       /* likewise */
    ROKEMAIPU_PT4_CHARGING_STOPPED = 10, /* 0 or 1 */
    ROKEMAIPU_PT4_SELFTEST_FAILED = 11   /* 0 or 1 */
};

/* ---- document 000 again, kinds 30 to 42. The names of their signals begin with the message's. */

/* Sequence_Control: extended 0x63002, 3 bytes */
enum rokemaipu_sequence_control {
    ROKEMAIPU_SEQUENCE_CONTROL_START_CHARGE_AUTHORISATION = 0, /* of rokemaipu_sequence_control_start_charge_authorisation */
    ROKEMAIPU_SEQUENCE_CONTROL_CHADEMO_START_BUTTON = 1,       /* of rokemaipu_sequence_control_chademo_start_button */
    ROKEMAIPU_SEQUENCE_CONTROL_CCS_AUTHORISATION_DONE = 2,     /* of rokemaipu_sequence_control_ccs_authorisation_done */
    ROKEMAIPU_SEQUENCE_CONTROL_CCS_AUTHORISATION_VALID = 3,    /* of rokemaipu_sequence_control_ccs_authorisation_valid */
    ROKEMAIPU_SEQUENCE_CONTROL_CHARGE_PARAMETERS_DONE = 4,     /* of rokemaipu_sequence_control_charge_parameters_done */
    ROKEMAIPU_SEQUENCE_CONTROL_USER_STOP_BUTTON = 5            /* of rokemaipu_sequence_control_user_stop_button */
};
enum rokemaipu_sequence_control_start_charge_authorisation {
    ROKEMAIPU_SEQUENCE_CONTROL_START_CHARGE_AUTHORISATION_NOT_ALLOWED = 0,
    ROKEMAIPU_SEQUENCE_CONTROL_START_CHARGE_AUTHORISATION_ALLOWED = 1
};
enum rokemaipu_sequence_control_chademo_start_button {
    ROKEMAIPU_SEQUENCE_CONTROL_CHADEMO_START_BUTTON_NOT_PRESSED = 0,
    ROKEMAIPU_SEQUENCE_CONTROL_CHADEMO_START_BUTTON_PRESSED = 1
};
enum rokemaipu_sequence_control_ccs_authorisation_done {
    ROKEMAIPU_SEQUENCE_CONTROL_CCS_AUTHORISATION_DONE_NOT_DONE = 0,
    ROKEMAIPU_SEQUENCE_CONTROL_CCS_AUTHORISATION_DONE_DONE = 1
};
enum rokemaipu_sequence_control_ccs_authorisation_valid {
    ROKEMAIPU_SEQUENCE_CONTROL_CCS_AUTHORISATION_VALID_INVALID = 0,
    ROKEMAIPU_SEQUENCE_CONTROL_CCS_AUTHORISATION_VALID_VALID = 1
};
enum rokemaipu_sequence_control_charge_parameters_done {
    ROKEMAIPU_SEQUENCE_CONTROL_CHARGE_PARAMETERS_DONE_NOT_DONE = 0,
    ROKEMAIPU_SEQUENCE_CONTROL_CHARGE_PARAMETERS_DONE_DONE = 1
};
enum rokemaipu_sequence_control_user_stop_button {
    ROKEMAIPU_SEQUENCE_CONTROL_USER_STOP_BUTTON_NOT_PRESSED = 0,
    ROKEMAIPU_SEQUENCE_CONTROL_USER_STOP_BUTTON_PRESSED = 1
};

/* ADM_CS_SECC_Outputs: extended 0x63201, 8 bytes */
enum rokemaipu_adm_cs_secc_outputs {
    ROKEMAIPU_ADM_CS_SECC_OUTPUTS_DIGITAL_OUTPUT1 = 0, /* 0 or 1 */
    ROKEMAIPU_ADM_CS_SECC_OUTPUTS_DIGITAL_OUTPUT2 = 1, /* 0 or 1 */
    ROKEMAIPU_ADM_CS_SECC_OUTPUTS_DIGITAL_OUTPUT3 = 2, /* 0 or 1 */
    ROKEMAIPU_ADM_CS_SECC_OUTPUTS_DIGITAL_OUTPUT4 = 3, /* 0 or 1 */
    ROKEMAIPU_ADM_CS_SECC_OUTPUTS_RESERVED = 4         /* as it is */
};

/* EV_Information_Battery: extended 0x6b100, 6 bytes */
enum rokemaipu_ev_information_battery {
    ROKEMAIPU_EV_INFORMATION_BATTERY_BATTERY_CAPACITY = 0,        /* kWh */
    ROKEMAIPU_EV_INFORMATION_BATTERY_PRESENT_STATE_OF_CHARGE = 1, /* % */
    ROKEMAIPU_EV_INFORMATION_BATTERY_MINIMUM_STATE_OF_CHARGE = 2, /* % */
    ROKEMAIPU_EV_INFORMATION_BATTERY_TARGET_STATE_OF_CHARGE = 3,  /* % */
    ROKEMAIPU_EV_INFORMATION_BATTERY_MAXIMUM_STATE_OF_CHARGE = 4  /* % */
};

/* EV_Information_Voltages: extended 0x6b101, 6 bytes */
enum rokemaipu_ev_information_voltages {
    ROKEMAIPU_EV_INFORMATION_VOLTAGES_EV_MINIMUM_VOLTAGE = 0, /* 0.1 V */
    ROKEMAIPU_EV_INFORMATION_VOLTAGES_EV_MAXIMUM_VOLTAGE = 1, /* 0.1 V */
    ROKEMAIPU_EV_INFORMATION_VOLTAGES_EV_PRESENT_VOLTAGE = 2  /* 0.1 V */
};

/* EV_Information_Charge_Limits: extended 0x6b102, 8 bytes */
enum rokemaipu_ev_information_charge_limits {
    ROKEMAIPU_EV_INFORMATION_CHARGE_LIMITS_EV_MINIMUM_CHARGE_CURRENT = 0, /* 0.1 A */
    ROKEMAIPU_EV_INFORMATION_CHARGE_LIMITS_EV_MAXIMUM_CHARGE_CURRENT = 1, /* 0.1 A */
    ROKEMAIPU_EV_INFORMATION_CHARGE_LIMITS_EV_MINIMUM_CHARGE_POWER = 2,   /* kW */
    ROKEMAIPU_EV_INFORMATION_CHARGE_LIMITS_EV_MAXIMUM_CHARGE_POWER = 3    /* kW */
};

/* EV_Information_Discharge_Limits: extended 0x6b103, 8 bytes */
enum rokemaipu_ev_information_discharge_limits {
    ROKEMAIPU_EV_INFORMATION_DISCHARGE_LIMITS_EV_MINIMUM_DISCHARGE_CURRENT = 0, /* 0.1 A */
    ROKEMAIPU_EV_INFORMATION_DISCHARGE_LIMITS_EV_MAXIMUM_DISCHARGE_CURRENT = 1, /* 0.1 A */
    ROKEMAIPU_EV_INFORMATION_DISCHARGE_LIMITS_EV_MINIMUM_DISCHARGE_POWER = 2,   /* kW */
    ROKEMAIPU_EV_INFORMATION_DISCHARGE_LIMITS_EV_MAXIMUM_DISCHARGE_POWER = 3    /* kW */
};

/* EV_Information_Energy: extended 0x6b104, 6 bytes */
enum rokemaipu_ev_information_energy {
    ROKEMAIPU_EV_INFORMATION_ENERGY_EV_MINIMUM_ENERGY_REQUEST = 0, /* kWh, signed */
    ROKEMAIPU_EV_INFORMATION_ENERGY_EV_TARGET_ENERGY_REQUEST = 1,  /* kWh, signed */
    ROKEMAIPU_EV_INFORMATION_ENERGY_EV_MAXIMUM_ENERGY_REQUEST = 2  /* kWh, signed */
};

/* ADM_CO_CUI1_Inputs: extended 0x6b200, 8 bytes */
enum rokemaipu_adm_co_cui1_inputs {
    ROKEMAIPU_ADM_CO_CUI1_INPUTS_SWITCH0 = 0,             /* 0 or 1 */
    ROKEMAIPU_ADM_CO_CUI1_INPUTS_SWITCH1 = 1,             /* 0 or 1 */
    ROKEMAIPU_ADM_CO_CUI1_INPUTS_SWITCH2 = 2,             /* 0 or 1 */
    ROKEMAIPU_ADM_CO_CUI1_INPUTS_SWITCH3 = 3,             /* 0 or 1 */
    ROKEMAIPU_ADM_CO_CUI1_INPUTS_SWITCH4 = 4,             /* 0 or 1 */
    ROKEMAIPU_ADM_CO_CUI1_INPUTS_SWITCH5 = 5,             /* 0 or 1 */
    ROKEMAIPU_ADM_CO_CUI1_INPUTS_RESERVED = 6,            /* as it is */
    ROKEMAIPU_ADM_CO_CUI1_INPUTS_COLIBRI_TEMPERATURE = 7, /* °C plus 40 */
    ROKEMAIPU_ADM_CO_CUI1_INPUTS_CPU_TEMPERATURE = 8,     /* °C plus 40 */
    ROKEMAIPU_ADM_CO_CUI1_INPUTS_PISTOL_PTC1 = 9,         /* °C plus 40 */
    ROKEMAIPU_ADM_CO_CUI1_INPUTS_PISTOL_PTC2 = 10         /* °C plus 40 */
};

/* ADM_CS_SECC_Inputs: extended 0x6b201, 8 bytes */
enum rokemaipu_adm_cs_secc_inputs {
    ROKEMAIPU_ADM_CS_SECC_INPUTS_DIGITAL_INPUT1 = 0,  /* 0 or 1 */
    ROKEMAIPU_ADM_CS_SECC_INPUTS_DIGITAL_INPUT2 = 1,  /* 0 or 1 */
    ROKEMAIPU_ADM_CS_SECC_INPUTS_DIGITAL_INPUT3 = 2,  /* 0 or 1 */
    ROKEMAIPU_ADM_CS_SECC_INPUTS_DIGITAL_INPUT4 = 3,  /* 0 or 1 */
    ROKEMAIPU_ADM_CS_SECC_INPUTS_RESERVED = 4,        /* as it is */
    ROKEMAIPU_ADM_CS_SECC_INPUTS_CPU_TEMPERATURE = 5, /* °C plus 40 */
    ROKEMAIPU_ADM_CS_SECC_INPUTS_PISTOL_PTC1 = 6,     /* °C plus 40 */
    ROKEMAIPU_ADM_CS_SECC_INPUTS_PISTOL_PTC2 = 7      /* °C plus 40 */
};

/* ADM_CS_SPCC_Inputs: extended 0x6b202, 8 bytes */
enum rokemaipu_adm_cs_spcc_inputs {
    ROKEMAIPU_ADM_CS_SPCC_INPUTS_DIGITAL_INPUT1 = 0,   /* 0 or 1 */
    ROKEMAIPU_ADM_CS_SPCC_INPUTS_DIGITAL_INPUT2 = 1,   /* 0 or 1 */
    ROKEMAIPU_ADM_CS_SPCC_INPUTS_DIGITAL_INPUT3 = 2,   /* 0 or 1 */
    ROKEMAIPU_ADM_CS_SPCC_INPUTS_DIGITAL_INPUT4 = 3,   /* 0 or 1 */
    ROKEMAIPU_ADM_CS_SPCC_INPUTS_RESERVED = 4,         /* as it is */
    ROKEMAIPU_ADM_CS_SPCC_INPUTS_CPU_TEMPERATURE0 = 5, /* °C plus 40 */
    ROKEMAIPU_ADM_CS_SPCC_INPUTS_CPU_TEMPERATURE1 = 6, /* °C plus 40 */
    ROKEMAIPU_ADM_CS_SPCC_INPUTS_PT1K_A = 7,           /* °C plus 40 */
    ROKEMAIPU_ADM_CS_SPCC_INPUTS_PT1K_B = 8,           /* °C plus 40 */
    ROKEMAIPU_ADM_CS_SPCC_INPUTS_PT1KS_C = 9,          /* °C plus 40 */
    ROKEMAIPU_ADM_CS_SPCC_INPUTS_PT1KS_D = 10          /* °C plus 40 */
};

/* CCS_Extra_Information: extended 0x6b203, 8 bytes */
enum rokemaipu_ccs_extra_information {
    ROKEMAIPU_CCS_EXTRA_INFORMATION_CP_STATE = 0,      /* of rokemaipu_ccs_extra_information_cp_state */
    ROKEMAIPU_CCS_EXTRA_INFORMATION_CP_DUTY_CYCLE = 1, /* 0.1 % */
    ROKEMAIPU_CCS_EXTRA_INFORMATION_RESERVED = 2       /* as it is */
};
enum rokemaipu_ccs_extra_information_cp_state {
    ROKEMAIPU_CCS_EXTRA_INFORMATION_CP_STATE_E_OR_F = 0,
    ROKEMAIPU_CCS_EXTRA_INFORMATION_CP_STATE_D = 3,
    ROKEMAIPU_CCS_EXTRA_INFORMATION_CP_STATE_C = 6,
    ROKEMAIPU_CCS_EXTRA_INFORMATION_CP_STATE_B = 9,
    ROKEMAIPU_CCS_EXTRA_INFORMATION_CP_STATE_A = 12
};

/* MCS_Extra_Information: extended 0x6b204, 8 bytes */
enum rokemaipu_mcs_extra_information {
    ROKEMAIPU_MCS_EXTRA_INFORMATION_CE_STATE = 0, /* of rokemaipu_mcs_extra_information_ce_state */
    ROKEMAIPU_MCS_EXTRA_INFORMATION_ID_STATE = 1, /* of rokemaipu_mcs_extra_information_id_state */
    ROKEMAIPU_MCS_EXTRA_INFORMATION_RESERVED = 2  /* as it is */
};
enum rokemaipu_mcs_extra_information_ce_state {
    ROKEMAIPU_MCS_EXTRA_INFORMATION_CE_STATE_UNDEFINED = 0,
    ROKEMAIPU_MCS_EXTRA_INFORMATION_CE_STATE_A = 1,
    ROKEMAIPU_MCS_EXTRA_INFORMATION_CE_STATE_B0 = 2,
    ROKEMAIPU_MCS_EXTRA_INFORMATION_CE_STATE_B0_AUX = 3,
    ROKEMAIPU_MCS_EXTRA_INFORMATION_CE_STATE_B = 4,
    ROKEMAIPU_MCS_EXTRA_INFORMATION_CE_STATE_B_AUX = 5,
    ROKEMAIPU_MCS_EXTRA_INFORMATION_CE_STATE_C = 6,
    ROKEMAIPU_MCS_EXTRA_INFORMATION_CE_STATE_C_AUX = 7,
    ROKEMAIPU_MCS_EXTRA_INFORMATION_CE_STATE_EC = 8,
    ROKEMAIPU_MCS_EXTRA_INFORMATION_CE_STATE_E = 9
};
enum rokemaipu_mcs_extra_information_id_state {
    ROKEMAIPU_MCS_EXTRA_INFORMATION_ID_STATE_UNMATED = 0,
    ROKEMAIPU_MCS_EXTRA_INFORMATION_ID_STATE_MATED = 1,
    ROKEMAIPU_MCS_EXTRA_INFORMATION_ID_STATE_MATED_EVAUX = 2,
    ROKEMAIPU_MCS_EXTRA_INFORMATION_ID_STATE_MATED_EVSEAUX = 3
};

/* OCPP_Control: extended 0x6b300, 2 bytes */
enum rokemaipu_ocpp_control {
    ROKEMAIPU_OCPP_CONTROL_DYNAMIC_TARGET_CURRENT = 0 /* 0.1 A, signed */
};

/* ---- document 001, the pages of the older controllers, for rokemaipu_read_older and rokemaipu_write_older. Labels that are those of a signal above have its
 * enum. */

/* Power_Modules_Status: extended 0x60010, 8 bytes */
enum rokemaipu_older_power_modules_status {
    ROKEMAIPU_OLDER_POWER_MODULES_STATUS_PRESENT_VOLTAGE = 0,           /* 0.1 V */
    ROKEMAIPU_OLDER_POWER_MODULES_STATUS_PRESENT_CURRENT = 1,           /* 0.1 A, signed */
    ROKEMAIPU_OLDER_POWER_MODULES_STATUS_POWER_MODULES_TEMPERATURE = 2, /* °C plus 40 */
    ROKEMAIPU_OLDER_POWER_MODULES_STATUS_ENCLOSURE_TEMPERATURE = 3,     /* °C plus 40 */
    ROKEMAIPU_OLDER_POWER_MODULES_STATUS_SYSTEM_ENABLE = 4,             /* of rokemaipu_system_enable */
    ROKEMAIPU_OLDER_POWER_MODULES_STATUS_INSULATION_RESISTANCE = 5      /* 2 kOhm */
};

/* Power_Modules_Limits: extended 0x60011, 8 bytes */
enum rokemaipu_older_power_modules_limits {
    ROKEMAIPU_OLDER_POWER_MODULES_LIMITS_MAXIMUM_VOLTAGE = 0, /* 0.1 V */
    ROKEMAIPU_OLDER_POWER_MODULES_LIMITS_MAXIMUM_CURRENT = 1, /* 0.1 A, signed */
    ROKEMAIPU_OLDER_POWER_MODULES_LIMITS_RESERVED = 2         /* as it is */
};

/* Sequence_Control: extended 0x60012, 3 bytes */
enum rokemaipu_older_sequence_control {
    ROKEMAIPU_OLDER_SEQUENCE_CONTROL_START_CHARGE_AUTHORISATION = 0, /* of rokemaipu_sequence_control_start_charge_authorisation */
    ROKEMAIPU_OLDER_SEQUENCE_CONTROL_CHADEMO_START_BUTTON = 1,       /* of rokemaipu_sequence_control_chademo_start_button */
    ROKEMAIPU_OLDER_SEQUENCE_CONTROL_CCS_AUTHORISATION_DONE = 2,     /* of rokemaipu_sequence_control_ccs_authorisation_done */
    ROKEMAIPU_OLDER_SEQUENCE_CONTROL_CCS_AUTHORISATION_VALID = 3,    /* of rokemaipu_sequence_control_ccs_authorisation_valid */
    ROKEMAIPU_OLDER_SEQUENCE_CONTROL_CHARGE_PARAMETERS_DONE = 4,     /* of rokemaipu_sequence_control_charge_parameters_done */
    ROKEMAIPU_OLDER_SEQUENCE_CONTROL_USER_STOP_BUTTON = 5            /* of rokemaipu_sequence_control_user_stop_button */
};

/* ADM_CS_SECC_Outputs: extended 0x60013, 8 bytes */
enum rokemaipu_older_adm_cs_secc_outputs {
    ROKEMAIPU_OLDER_ADM_CS_SECC_OUTPUTS_DIGITAL_OUTPUT1 = 0, /* 0 or 1 */
    ROKEMAIPU_OLDER_ADM_CS_SECC_OUTPUTS_DIGITAL_OUTPUT2 = 1, /* 0 or 1 */
    ROKEMAIPU_OLDER_ADM_CS_SECC_OUTPUTS_DIGITAL_OUTPUT3 = 2, /* 0 or 1 */
    ROKEMAIPU_OLDER_ADM_CS_SECC_OUTPUTS_DIGITAL_OUTPUT4 = 3, /* 0 or 1 */
    ROKEMAIPU_OLDER_ADM_CS_SECC_OUTPUTS_RESERVED = 4         /* as it is */
};

/* New_Charge_Session: extended 0x68001, 8 bytes */
enum rokemaipu_older_new_charge_session {
    ROKEMAIPU_OLDER_NEW_CHARGE_SESSION_COMMUNICATION_PROTOCOL = 0, /* of rokemaipu_communication_protocol */
    ROKEMAIPU_OLDER_NEW_CHARGE_SESSION_PLUG_AND_PINS = 1,          /* of rokemaipu_plug_and_pins */
    ROKEMAIPU_OLDER_NEW_CHARGE_SESSION_EV_MAXIMUM_VOLTAGE = 2,     /* 0.1 V */
    ROKEMAIPU_OLDER_NEW_CHARGE_SESSION_EV_MAXIMUM_CURRENT = 3,     /* 0.1 A */
    ROKEMAIPU_OLDER_NEW_CHARGE_SESSION_BATTERY_CAPACITY = 4,       /* 2 kWh */
    ROKEMAIPU_OLDER_NEW_CHARGE_SESSION_STATE_OF_CHARGE = 5         /* % */
};

/* Insulation_Test: extended 0x68002, 2 bytes */
enum rokemaipu_older_insulation_test {
    ROKEMAIPU_OLDER_INSULATION_TEST_TEST_VOLTAGE = 0 /* 0.1 V */
};

/* Precharge: extended 0x68003, 4 bytes */
enum rokemaipu_older_precharge {
    ROKEMAIPU_OLDER_PRECHARGE_TARGET_VOLTAGE = 0, /* 0.1 V */
    ROKEMAIPU_OLDER_PRECHARGE_MAXIMUM_CURRENT = 1 /* 0.1 A */
};

/* Charge_Status_Change: extended 0x68004, 1 byte */
enum rokemaipu_older_charge_status_change {
    ROKEMAIPU_OLDER_CHARGE_STATUS_CHANGE_VEHICLE_READY_FOR_CHARGING = 0 /* of rokemaipu_vehicle_ready_for_charging */
};

/* Charging_Loop: extended 0x68005, 5 bytes */
enum rokemaipu_older_charging_loop {
    ROKEMAIPU_OLDER_CHARGING_LOOP_TARGET_VOLTAGE = 0, /* 0.1 V */
    ROKEMAIPU_OLDER_CHARGING_LOOP_TARGET_CURRENT = 1, /* 0.1 A, signed */
    ROKEMAIPU_OLDER_CHARGING_LOOP_STATE_OF_CHARGE = 2 /* % */
};

/* Emergency_Stop: extended 0x68006, 1 byte */
enum rokemaipu_older_emergency_stop {
    ROKEMAIPU_OLDER_EMERGENCY_STOP_ORIGIN = 0 /* of rokemaipu_stop_origin */
};

/* Charge_Session_Finished: extended 0x68007, 1 byte */
enum rokemaipu_older_charge_session_finished {
    ROKEMAIPU_OLDER_CHARGE_SESSION_FINISHED_STATE = 0 /* of rokemaipu_finished_state */
};

/* Advantics_Controller_Status: extended 0x68009, 1 byte */
enum rokemaipu_older_controller_status {
    ROKEMAIPU_OLDER_CONTROLLER_STATUS_STATE = 0 /* of rokemaipu_controller_state */
};

/* ADM_CO_CUI1_Inputs: extended 0x6800a, 8 bytes */
enum rokemaipu_older_adm_co_cui1_inputs {
    ROKEMAIPU_OLDER_ADM_CO_CUI1_INPUTS_SWITCH0 = 0,             /* 0 or 1 */
    ROKEMAIPU_OLDER_ADM_CO_CUI1_INPUTS_SWITCH1 = 1,             /* 0 or 1 */
    ROKEMAIPU_OLDER_ADM_CO_CUI1_INPUTS_SWITCH2 = 2,             /* 0 or 1 */
    ROKEMAIPU_OLDER_ADM_CO_CUI1_INPUTS_SWITCH3 = 3,             /* 0 or 1 */
    ROKEMAIPU_OLDER_ADM_CO_CUI1_INPUTS_SWITCH4 = 4,             /* 0 or 1 */
    ROKEMAIPU_OLDER_ADM_CO_CUI1_INPUTS_SWITCH5 = 5,             /* 0 or 1 */
    ROKEMAIPU_OLDER_ADM_CO_CUI1_INPUTS_RESERVED = 6,            /* as it is */
    ROKEMAIPU_OLDER_ADM_CO_CUI1_INPUTS_COLIBRI_TEMPERATURE = 7, /* °C plus 40 */
    ROKEMAIPU_OLDER_ADM_CO_CUI1_INPUTS_CPU_TEMPERATURE = 8,     /* °C plus 40 */
    ROKEMAIPU_OLDER_ADM_CO_CUI1_INPUTS_PISTOL_PTC1 = 9,         /* °C plus 40 */
    ROKEMAIPU_OLDER_ADM_CO_CUI1_INPUTS_PISTOL_PTC2 = 10         /* °C plus 40 */
};

/* ADM_CS_SECC_Inputs: extended 0x6800b, 8 bytes */
enum rokemaipu_older_adm_cs_secc_inputs {
    ROKEMAIPU_OLDER_ADM_CS_SECC_INPUTS_DIGITAL_INPUT1 = 0,  /* 0 or 1 */
    ROKEMAIPU_OLDER_ADM_CS_SECC_INPUTS_DIGITAL_INPUT2 = 1,  /* 0 or 1 */
    ROKEMAIPU_OLDER_ADM_CS_SECC_INPUTS_DIGITAL_INPUT3 = 2,  /* 0 or 1 */
    ROKEMAIPU_OLDER_ADM_CS_SECC_INPUTS_DIGITAL_INPUT4 = 3,  /* 0 or 1 */
    ROKEMAIPU_OLDER_ADM_CS_SECC_INPUTS_RESERVED = 4,        /* as it is */
    ROKEMAIPU_OLDER_ADM_CS_SECC_INPUTS_CPU_TEMPERATURE = 5, /* °C plus 40 */
    ROKEMAIPU_OLDER_ADM_CS_SECC_INPUTS_PISTOL_PTC1 = 6,     /* °C plus 40 */
    ROKEMAIPU_OLDER_ADM_CS_SECC_INPUTS_PISTOL_PTC2 = 7      /* °C plus 40 */
};

/* EV_ID_CCS_Part2_DIN: extended 0x6800c, 6 bytes */
enum rokemaipu_older_ev_id {
    ROKEMAIPU_OLDER_EV_ID_BYTE0 = 0, /* as it is */
    ROKEMAIPU_OLDER_EV_ID_BYTE1 = 1, /* as it is */
    ROKEMAIPU_OLDER_EV_ID_BYTE2 = 2, /* as it is */
    ROKEMAIPU_OLDER_EV_ID_BYTE3 = 3, /* as it is */
    ROKEMAIPU_OLDER_EV_ID_BYTE4 = 4, /* as it is */
    ROKEMAIPU_OLDER_EV_ID_BYTE5 = 5  /* as it is */
};

/* ADM_CS_SPCC_Inputs: extended 0x6800d, 8 bytes */
enum rokemaipu_older_adm_cs_spcc_inputs {
    ROKEMAIPU_OLDER_ADM_CS_SPCC_INPUTS_DIGITAL_INPUT1 = 0,   /* 0 or 1 */
    ROKEMAIPU_OLDER_ADM_CS_SPCC_INPUTS_DIGITAL_INPUT2 = 1,   /* 0 or 1 */
    ROKEMAIPU_OLDER_ADM_CS_SPCC_INPUTS_DIGITAL_INPUT3 = 2,   /* 0 or 1 */
    ROKEMAIPU_OLDER_ADM_CS_SPCC_INPUTS_DIGITAL_INPUT4 = 3,   /* 0 or 1 */
    ROKEMAIPU_OLDER_ADM_CS_SPCC_INPUTS_RESERVED = 4,         /* as it is */
    ROKEMAIPU_OLDER_ADM_CS_SPCC_INPUTS_CPU_TEMPERATURE0 = 5, /* °C plus 40 */
    ROKEMAIPU_OLDER_ADM_CS_SPCC_INPUTS_CPU_TEMPERATURE1 = 6, /* °C plus 40 */
    ROKEMAIPU_OLDER_ADM_CS_SPCC_INPUTS_PT1K_A = 7,           /* °C plus 40 */
    ROKEMAIPU_OLDER_ADM_CS_SPCC_INPUTS_PT1K_B = 8,           /* °C plus 40 */
    ROKEMAIPU_OLDER_ADM_CS_SPCC_INPUTS_PT1KS_C = 9,          /* °C plus 40 */
    ROKEMAIPU_OLDER_ADM_CS_SPCC_INPUTS_PT1KS_D = 10          /* °C plus 40 */
};

/* CCS_Extra_Information: extended 0x6800e, 8 bytes */
enum rokemaipu_older_ccs_extra_information {
    ROKEMAIPU_OLDER_CCS_EXTRA_INFORMATION_CP_STATE = 0,      /* of rokemaipu_ccs_extra_information_cp_state */
    ROKEMAIPU_OLDER_CCS_EXTRA_INFORMATION_CP_DUTY_CYCLE = 1, /* 0.1 % */
    ROKEMAIPU_OLDER_CCS_EXTRA_INFORMATION_RESERVED = 2       /* as it is */
};

/* MCS_Extra_Information: extended 0x6800f, 8 bytes */
enum rokemaipu_older_mcs_extra_information {
    ROKEMAIPU_OLDER_MCS_EXTRA_INFORMATION_CE_STATE = 0, /* of rokemaipu_mcs_extra_information_ce_state */
    ROKEMAIPU_OLDER_MCS_EXTRA_INFORMATION_ID_STATE = 1, /* of rokemaipu_mcs_extra_information_id_state */
    ROKEMAIPU_OLDER_MCS_EXTRA_INFORMATION_RESERVED = 2  /* as it is */
};

#endif
