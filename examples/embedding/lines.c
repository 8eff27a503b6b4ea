/* A script from standard input through scm_line: writes what scm_monitor --workers 0 writes. */
#include "scm.h"

#include <stdio.h>
#include <stdlib.h>

int main(void) {
  scm_monitor monitor = SCM_NONE;
  char *line = NULL;
  uint8_t *reply = NULL;
  size_t line_room = 0, room = 0, needed = 0;
  ssize_t length;
  if (scm_make(&monitor) != SCM_DONE)
    return 1;
  while ((length = getline(&line, &line_room, stdin)) > 0) {
    size_t without_feed = (size_t)length - (line[length - 1] == '\n');
    uint32_t code = scm_line(&monitor, (const uint8_t *)line, without_feed, reply, room, &needed);
    if (code == SCM_NO_ROOM) {
      room = needed;
      reply = realloc(reply, room);
      if (reply == NULL)
        return 1;
      code = scm_text(&monitor, reply, room, &needed);
    }
    if (code != SCM_DONE || (needed != 0 && fwrite(reply, 1, needed, stdout) != needed))
      return 1;
  }
  scm_free(&monitor);
  free(reply);
  free(line);
  return 0;
}
