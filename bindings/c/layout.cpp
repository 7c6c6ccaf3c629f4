/* SPDX-License-Identifier: Apache-2.0 OR MIT */
// Prints the size of each struct that crosses between C and the library, the offsets of its fields, and a line that the
// library made.
#include <cadence.h>
#include <cstdio>

#define AT(type, field) std::printf(" %zu", offsetof(type, field))

int main() {
    std::printf("handle %zu", sizeof(cadence_handle));
    AT(cadence_handle, at), AT(cadence_handle, open);
    std::printf("\nsums %zu", sizeof(cadence_sums));
    AT(cadence_sums, at), AT(cadence_sums, open);
    std::printf("\ntag %zu", sizeof(cadence_tag));
    AT(cadence_tag, key), AT(cadence_tag, key_len), AT(cadence_tag, text), AT(cadence_tag, text_len), AT(cadence_tag, keyed);
    std::printf("\ndecimal %zu", sizeof(cadence_decimal_number));
    AT(cadence_decimal_number, mantissa), AT(cadence_decimal_number, places);
    std::printf("\nsettings %zu", sizeof(cadence_settings));
    AT(cadence_settings, prefix), AT(cadence_settings, prefix_len), AT(cadence_settings, tags);
    AT(cadence_settings, tags_len), AT(cadence_settings, container), AT(cadence_settings, container_len);
    AT(cadence_settings, contained), AT(cadence_settings, strict), AT(cadence_settings, cleaned);
    AT(cadence_settings, external), AT(cadence_settings, external_len), AT(cadence_settings, cardinality);
    std::printf("\noptions %zu", sizeof(cadence_options));
    AT(cadence_options, tags), AT(cadence_options, tags_len), AT(cadence_options, container);
    AT(cadence_options, container_len), AT(cadence_options, rate), AT(cadence_options, time);
    AT(cadence_options, contained), AT(cadence_options, rated), AT(cadence_options, timed), AT(cadence_options, known);
    AT(cadence_options, cardinality);
    std::printf("\nevent %zu", sizeof(cadence_event_data));
    AT(cadence_event_data, title), AT(cadence_event_data, title_len), AT(cadence_event_data, text);
    AT(cadence_event_data, text_len), AT(cadence_event_data, host), AT(cadence_event_data, host_len);
    AT(cadence_event_data, key), AT(cadence_event_data, key_len), AT(cadence_event_data, source);
    AT(cadence_event_data, source_len), AT(cadence_event_data, container), AT(cadence_event_data, container_len);
    AT(cadence_event_data, tags), AT(cadence_event_data, tags_len), AT(cadence_event_data, time);
    AT(cadence_event_data, priority), AT(cadence_event_data, alert), AT(cadence_event_data, timed);
    std::printf("\ncheck %zu", sizeof(cadence_check_data));
    AT(cadence_check_data, name), AT(cadence_check_data, name_len), AT(cadence_check_data, host);
    AT(cadence_check_data, host_len), AT(cadence_check_data, message), AT(cadence_check_data, message_len);
    AT(cadence_check_data, container), AT(cadence_check_data, container_len), AT(cadence_check_data, tags);
    AT(cadence_check_data, tags_len), AT(cadence_check_data, time), AT(cadence_check_data, status);
    AT(cadence_check_data, timed);
    std::printf("\ncounts %zu", sizeof(cadence_counts_of));
    AT(cadence_counts_of, held), AT(cadence_counts_of, waiting), AT(cadence_counts_of, made);
    AT(cadence_counts_of, sent), AT(cadence_counts_of, dropped);
    std::printf("\nvariables %zu", sizeof(cadence_variables));
    AT(cadence_variables, url), AT(cadence_variables, url_len), AT(cadence_variables, socket);
    AT(cadence_variables, socket_len), AT(cadence_variables, agent_host), AT(cadence_variables, agent_host_len);
    AT(cadence_variables, agent_port), AT(cadence_variables, agent_port_len), AT(cadence_variables, statsd_host);
    AT(cadence_variables, statsd_host_len), AT(cadence_variables, statsd_port), AT(cadence_variables, statsd_port_len);
    AT(cadence_variables, env), AT(cadence_variables, env_len), AT(cadence_variables, service);
    AT(cadence_variables, service_len), AT(cadence_variables, version), AT(cadence_variables, version_len);
    AT(cadence_variables, tags), AT(cadence_variables, tags_len), AT(cadence_variables, entity_id);
    AT(cadence_variables, entity_id_len), AT(cadence_variables, disable), AT(cadence_variables, disable_len);
    AT(cadence_variables, enabled), AT(cadence_variables, enabled_len), AT(cadence_variables, max_size);
    AT(cadence_variables, max_size_len), AT(cadence_variables, prefix), AT(cadence_variables, prefix_len);
    AT(cadence_variables, origin), AT(cadence_variables, origin_len), AT(cadence_variables, ipv6);
    AT(cadence_variables, ipv6_len), AT(cadence_variables, external), AT(cadence_variables, external_len);
    AT(cadence_variables, cardinality), AT(cadence_variables, cardinality_len);
    AT(cadence_variables, datadog_cardinality), AT(cadence_variables, datadog_cardinality_len);
    const cadence_options none = CADENCE_NO_OPTIONS;
    const cadence_settings nothing = CADENCE_NO_SETTINGS;
    const cadence_handle closed = CADENCE_CLOSED;
    const int64_t value = 7;
    uint8_t line[16];
    size_t length;
    const uint32_t status = cadence_format_signed(&nothing, CADENCE_GAUGE, (const uint8_t *)"x", 1, &value, 1, &none,
                                                  line, sizeof line, &length);
    std::printf("\n%u %.*s\n", status + closed.open, (int)length, (const char *)line);
}
