#include <stdio.h>
#include <stdlib.h>

struct node {
  int value;
  struct node *next;
};

/* Puts a node where the list stays in order. */
void insert(struct node **at, struct node *n) {
  while (*at != NULL && (*at)->value < n->value) at = &(*at)->next;
  n->next = *at;
  *at = n;
}

int main(void) {
  struct node *list = NULL, *gone;
  int x = 7, i;
  for (i = 0; i < 6; i++) {
    struct node *n = malloc(sizeof(struct node));
    x = x * 5 % 23;
    n->value = x;
    insert(&list, n);
  }
  for (struct node *n = list; n; n = n->next) printf("%d ", n->value);
  printf("\n");
  gone = list;
  list = list->next;
  free(gone);
  printf("%d\n", list->value);
  return gone->value; /* the node is freed: fault 103 */
}
