#include <mpi.h>
#include <stdio.h>

int divisors(int n) {
  int d, count = 0;
  for (d = 1; d <= n; d++) {
    if (n % d == 0) count++;
  }
  return count;
}

/* Rank 0 hands out the numbers from 10 to 15, each to the worker that asks first; a worker asks with its last answer. */
int main(int argc, char **argv) {
  int rank, size, working, task, next = 10;
  int report[2];
  MPI_Status status;
  MPI_Init(&argc, &argv);
  MPI_Comm_rank(MPI_COMM_WORLD, &rank);
  MPI_Comm_size(MPI_COMM_WORLD, &size);
  if (rank == 0) {
    working = size - 1;
    while (working > 0) {
      MPI_Recv(report, 2, MPI_INT, MPI_ANY_SOURCE, 0, MPI_COMM_WORLD, &status);
      if (report[0] > 0) {
        printf("%d has %d divisors, says %d\n", report[0], report[1], status.MPI_SOURCE);
      }
      task = next > 15 ? 0 : next;
      if (task == 0) working--;
      MPI_Send(&task, 1, MPI_INT, status.MPI_SOURCE, 1, MPI_COMM_WORLD);
      next++;
    }
  } else {
    report[0] = 0;
    do {
      MPI_Send(report, 2, MPI_INT, 0, 0, MPI_COMM_WORLD);
      MPI_Recv(&task, 1, MPI_INT, 0, 1, MPI_COMM_WORLD, MPI_STATUS_IGNORE);
      report[0] = task;
      if (task > 0) report[1] = divisors(task);
    } while (task > 0);
  }
  MPI_Finalize();
  return 0;
}
