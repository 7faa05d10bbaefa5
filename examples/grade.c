/* Grades students' scripts against what they are to print: what each prints, whether it prints that every time, which files it leaves, and
 * where it may differ, whether it does in some order of its processes.
 *
 *   bindings/build
 *   cc -Iinclude examples/grade.c lib/libxvsh.a -o grade && ./grade
 */
#include <stdio.h>
#include <string.h>
#include "xvsh.h"

static bool same(xvsh_bytes bytes, const char *text) {
  return bytes.length == strlen(text) && memcmp(bytes.at, text, bytes.length) == 0;
}

int main(void) {
  const char *wanted = "apple pie\n2 3 15 \n";
  const char *scripts[] = {
    "grep p fruit | head -1 ; grep p fruit | wc\n",
    "echo apple pie > found; cat found\n",
    "echo a &; echo b b\n",
    "cat fruit > a/b/c ; echo 1 2 3 4 5 6 7 8 9 10\n",
  };
  xvsh_file files[] = { { xvsh_text("fruit"), xvsh_text("apple pie\nplum\nfig\n") } };
  xvsh_answer answer = XVSH_ANSWER, orders = XVSH_ANSWER;

  for (size_t i = 0; i < sizeof scripts / sizeof *scripts; i++) {
    xvsh_task task = { xvsh_text(scripts[i]), xvsh_text(""), { files, 1 }, 1 << 20, 0 };
    printf("script %zu\n", i + 1);
    if (xvsh_plain(&task, &answer) != XVSH_OK) {
      xvsh_bytes text = xvsh_fault_text(answer.status);
      printf("  refused: %.*s\n", (int)text.length, (const char *)text.at);
      continue;
    }
    printf("  %s, %s\n", same(answer.out, wanted) ? "right" : "wrong", answer.fine ? "settled" : "not settled");
    if (!answer.fine && xvsh_explore(&task, 200000, 0, &orders) == XVSH_OK)
      printf("  %s, %s\n", orders.fine ? "one outcome" : "several outcomes", orders.whole ? "every order tried" : "so far");
    xvsh_left left = { XVSH_NO_BYTES, XVSH_NO_BYTES, false, 0, 0 };
    while (xvsh_next_file(&answer, &left))
      printf("  leaves %.*s, %zu bytes\n", (int)left.name.length, (const char *)left.name.at, left.bytes.length);
  }
  xvsh_answer_free(&answer);
  xvsh_answer_free(&orders);
  return 0;
}
