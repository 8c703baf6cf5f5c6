#include <mpi.h>
#include <stdio.h>

/* Two ranks swap a number, but each waits for the other's before it sends its own. */
int main(int argc, char **argv) {
  int rank, mine, other;
  MPI_Init(&argc, &argv);
  MPI_Comm_rank(MPI_COMM_WORLD, &rank);
  mine = rank + 1;
  printf("rank %d waits\n", rank);
  MPI_Recv(&other, 1, MPI_INT, 1 - rank, 0, MPI_COMM_WORLD, MPI_STATUS_IGNORE);
  MPI_Send(&mine, 1, MPI_INT, 1 - rank, 0, MPI_COMM_WORLD);
  printf("rank %d got %d\n", rank, other);
  MPI_Finalize();
  return 0;
}
