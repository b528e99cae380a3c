/* PDUs as they stand on the wire (RFC 7143 section 11). */
#include <stdlib.h>
#include <string.h>

#include "parts.h"

uint32_t number(const uint8_t *place) {
    return (uint32_t)place[0] << 24 | (uint32_t)place[1] << 16 | (uint32_t)place[2] << 8 | place[3];
}

void put_number(uint8_t *place, uint32_t value) {
    for (int byte = 0; byte < 4; byte++)
        place[byte] = (uint8_t)(value >> (24 - 8 * byte));
}

uint32_t segment(const uint8_t *header) {
    return number(header + 4) & 0xffffff;
}

bool receive_pdu(int from, uint8_t *header, uint8_t *data) {
    return receive(from, header, CUNDARRIX_HEADER) && segment(header) <= SEGMENT && receive(from, data, header[4] * 4u)
        && receive(from, data, (segment(header) + 3) & ~3u);
}

bool send_pdu(int to, uint8_t *bytes, const cundarrix_pdu *pdu) {
    static const uint8_t zeros[4];
    struct request *request = (struct request *)(uintptr_t)pdu->cookie;
    const uint8_t *data = NULL;
    if (pdu->kind == CUNDARRIX_OWN && bytes[0] == DATA_IN)
        data = request->data + number(bytes + 40);
    if (pdu->kind == CUNDARRIX_REPLY && bytes[0] == NOP_IN) {
        data = request->data;
        put_number(bytes + 4, request->length);
    }
    if (pdu->kind == CUNDARRIX_REPLY && bytes[0] == SCSI_RESPONSE)
        put_number(bytes + 36, request->pieces);
    return send_bytes(to, bytes, pdu->length)
        && (!data || (send_bytes(to, data, segment(bytes)) && send_bytes(to, zeros, -segment(bytes) & 3)));
}

bool receive_login(int from, uint8_t *header) {
    uint8_t *data = allocate(SEGMENT);
    bool is_login = receive_pdu(from, header, data) && (header[0] & 0x3f) == LOGIN && header[1] == 0x87;
    free(data);
    return is_login;
}

bool send_login(int to, const uint8_t *header, const cundarrix_numbers *numbers) {
    static const char keys[] = "TargetPortalGroupTag=1\0HeaderDigest=None\0DataDigest=None\0InitialR2T=Yes\0ImmediateData=No\0MaxConnections=8\0"
                               "MaxRecvDataSegmentLength=65536\0MaxBurstLength=16776192\0ErrorRecoveryLevel=0\0";
    uint8_t answer[LOGIN_LENGTH] = {LOGIN_RESPONSE};
    memcpy(answer + 1, header + 1, 23);
    answer[2] = answer[3] = answer[14] = 0, answer[15] = 1; /* the TSIH is 1 */
    put_number(answer + 4, sizeof keys - 1);
    put_number(answer + 24, STAT_SN);
    put_number(answer + 28, numbers->exp_cmd_sn);
    put_number(answer + 32, numbers->max_cmd_sn);
    memcpy(answer + CUNDARRIX_HEADER, keys, sizeof keys - 1);
    return send_bytes(to, answer, sizeof answer);
}
