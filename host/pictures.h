/* pictures.h: the two pictures: a channel's bottom and surface, and a staff record. */
#ifndef PICTURES_H
#define PICTURES_H

#include "staff.h"
#include "text.h"

/* A channel file that the library takes; the rule is that of its steps, 0 where nothing says it. */
void draw_channel(struct text *svg, const char *name, const uint8_t *file, uint32_t rule);

void draw_staffs(struct text *svg, const char *name, const struct staffs *staffs);

#endif
