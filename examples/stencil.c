#include <mpi.h>
#include <stdio.h>
#include <stdlib.h>

/* Heat in a rod: each rank has four cells and a copy of its neighbours' nearest ones. A step takes the mean of three cells. */
int main(int argc, char **argv) {
  int rank, size, i, step;
  MPI_Init(&argc, &argv);
  MPI_Comm_rank(MPI_COMM_WORLD, &rank);
  MPI_Comm_size(MPI_COMM_WORLD, &size);
  int left = rank > 0 ? rank - 1 : MPI_PROC_NULL;
  int right = rank < size - 1 ? rank + 1 : MPI_PROC_NULL;
  long *old = (long *)malloc(6 * sizeof(long));
  long *new = (long *)malloc(6 * sizeof(long));
  for (i = 0; i < 6; i++) {
    old[i] = 0;
    new[i] = 0;
  }
  if (rank == 0) old[4] = 2700;
  for (step = 0; step < 3; step++) {
    #pragma ccc checkpoint
    MPI_Send(&old[1], 1, MPI_LONG, left, 1, MPI_COMM_WORLD);
    MPI_Send(&old[4], 1, MPI_LONG, right, 2, MPI_COMM_WORLD);
    MPI_Recv(&old[0], 1, MPI_LONG, left, 2, MPI_COMM_WORLD, MPI_STATUS_IGNORE);
    MPI_Recv(&old[5], 1, MPI_LONG, right, 1, MPI_COMM_WORLD, MPI_STATUS_IGNORE);
    for (i = 1; i <= 4; i++) new[i] = (old[i - 1] + old[i] + old[i + 1]) / 3;
    long *other = old;
    old = new;
    new = other;
  }
  for (i = 1; i <= 4; i++) printf("%ld ", old[i]);
  printf("\n");
  free(old);
  free(new);
  MPI_Finalize();
  return 0;
}
