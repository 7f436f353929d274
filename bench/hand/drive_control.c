/* Two activations of `control` an instant: it executes, and it sends. */
#include "control.h"
#include "drive.h"

static uint64_t instants(uint64_t count)
{
    ltta_control_outputs outputs = { false, 0 };
    ltta_control_from_panel from_panel = { true, false };
    ltta_control_from_sensor from_sensor = { true, 0 };
    ltta_control_to_engine to_engine;
    uint64_t sum = 0;
    bool first = true;
    ltta_control_init();
    for (uint64_t k = 0; k < count; k++) {
        if (!first) {
            from_panel.m0 = (k & 7) != 0;
            from_sensor.m0 = (int64_t)(k & 127);
            ltta_control_deliver_panel(&from_panel);
            ltta_control_deliver_sensor(&from_sensor);
        }
        if (ltta_control_activate(true, &outputs) != ltta_control_did_execute) { abort(); }
        sum += outputs.has_gap ? (uint64_t)outputs.out_gap : 1;
        ltta_control_acknowledge_engine(ltta_control_acknowledgement());
        if (ltta_control_activate(true, &outputs) != ltta_control_did_send) { abort(); }
        ltta_control_message_engine(&to_engine);
        sum = sum * 3 + (uint64_t)to_engine.m0;
        from_panel.bit = to_engine.bit;
        from_sensor.bit = to_engine.bit;
        first = false;
    }
    return sum;
}
