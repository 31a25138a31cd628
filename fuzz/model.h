/* The keeper's calls, written a third time from the format's document: plain C that the fuzzer can
   instrument. The names have a prefix of their own, so that the archive links beside them; what they take is
   what keeper.h and listing_text.h say of the archives'. */
#ifndef MODEL_H
#define MODEL_H

#include "listing_text.h"

#ifndef PREFIX
#define PREFIX model_
#endif
#define JOIN_NAMES(prefix, name) prefix##name
#define JOIN(prefix, name) JOIN_NAMES(prefix, name)
#define MODEL(name) JOIN(PREFIX, name)

__typeof__(keeper_check_table) MODEL(check_table);
__typeof__(keeper_recovery_line) MODEL(recovery_line);
__typeof__(keeper_line_of_set) MODEL(line_of_set);
__typeof__(keeper_lines_of_sets) MODEL(lines_of_sets);
__typeof__(keeper_line_under) MODEL(line_under);
__typeof__(keeper_marked_line) MODEL(marked_line);
__typeof__(keeper_stand_together) MODEL(stand_together);
__typeof__(keeper_send) MODEL(send);
__typeof__(keeper_save) MODEL(save);
__typeof__(keeper_receive) MODEL(receive);
__typeof__(keeper_fall_back) MODEL(fall_back);
__typeof__(keeper_keep_sheet) MODEL(keep_sheet);
__typeof__(keeper_listing) MODEL(listing);

#endif
