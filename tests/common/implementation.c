#include "implementation.h"
#include "reference.h"

const struct implementation archive = {
    "archive", sct_power_on, sct_take, sct_serve, sct_give, sct_work,
    sct_lock, sct_unlock, sct_set_visible, sct_sample, sct_repair, sct_save, sct_convert
};

const struct implementation reference = {
    "reference", REF(power_on), REF(take), REF(serve), REF(give), REF(work),
    REF(lock), REF(unlock), REF(set_visible), REF(sample), REF(repair), REF(save), REF(convert)
};
