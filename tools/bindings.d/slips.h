/* The arguments of the slips that slips.awk makes. */
#include "paskerotim.h"

extern uint64_t a_uint64;
extern uint32_t a_uint32;
extern int an_int;
extern int64_t an_int64;
extern long a_long;
extern long long a_long_long;
extern float a_float;
extern double a_double;
extern long double a_long_double;
extern size_t a_size;
extern uint8_t some_bytes[PK_HEX64_ROOM];
extern char some_chars[PK_HEX64_ROOM];

#ifdef __cplusplus
/* A class of a user's own for the numbers of gauges. */
struct Torque {
    operator double() const;
};
extern const Torque a_torque;
#endif
