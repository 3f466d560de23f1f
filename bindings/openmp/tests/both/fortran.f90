! Fortran: the omp_lib functions, locks, loops, tasks.
program conform
  use omp_lib
  implicit none
  integer :: i, j, total, hits(100), n, x, y, k
  integer(8) :: big
  integer(kind=omp_lock_kind) :: l
  integer(kind=omp_nest_lock_kind) :: m
  integer(kind=omp_sched_kind) :: kind
  integer :: chunk, a(20, 20)
  character(len=20) :: text
  real(8) :: t
  call omp_set_num_threads(4)
  print *, 'max', omp_get_max_threads(), 'in', omp_in_parallel(), 'dynamic', omp_get_dynamic()
  total = 0
  !$omp parallel reduction(+:total)
  total = total + omp_get_thread_num() + 10 * omp_get_num_threads()
  !$omp end parallel
  print *, 'total', total
  call omp_init_lock(l)
  call omp_init_nest_lock(m)
  x = 0; y = 0
  !$omp parallel do schedule(dynamic, 3)
  do i = 1, 100
     call omp_set_lock(l)
     x = x + i
     call omp_unset_lock(l)
     call omp_set_nest_lock(m)
     k = omp_test_nest_lock(m)
     y = y + k
     call omp_unset_nest_lock(m)
     call omp_unset_nest_lock(m)
  end do
  print *, 'locks', x, y, omp_test_lock(l)
  call omp_unset_lock(l)
  call omp_destroy_lock(l)
  call omp_destroy_nest_lock(m)
  call omp_set_schedule(omp_sched_guided, 4)
  call omp_get_schedule(kind, chunk)
  print *, 'schedule', kind, chunk
  hits = 0
  !$omp parallel do schedule(runtime)
  do i = 100, 1, -1
     hits(i) = hits(i) + 1
  end do
  print *, 'hits', sum(hits), minval(hits), maxval(hits)
  big = 0
  !$omp parallel do ordered schedule(static, 2)
  do i = 1, 30
     !$omp ordered
     big = mod(big * 31 + i, 1000000007_8)
     !$omp end ordered
  end do
  print *, 'ordered', big
  a = 1
  !$omp parallel do ordered(2) schedule(dynamic)
  do i = 2, 20
     do j = 2, 20
        !$omp ordered depend(sink: i-1, j) depend(sink: i, j-1)
        a(i, j) = mod(a(i-1, j) + a(i, j-1), 10007)
        !$omp ordered depend(source)
     end do
  end do
  print *, 'doacross', a(20, 20)
  n = 0
  !$omp parallel
  !$omp single
  do i = 1, 20
     !$omp task firstprivate(i) shared(n)
     !$omp atomic
     n = n + i
     !$omp end task
  end do
  !$omp taskwait
  !$omp taskloop shared(n) grainsize(2)
  do i = 1, 10
     !$omp atomic
     n = n + 100
  end do
  !$omp end single
  !$omp sections
  !$omp section
  !$omp atomic
  n = n + 10000
  !$omp section
  !$omp atomic
  n = n + 20000
  !$omp end sections
  !$omp workshare
  hits = hits + 2
  !$omp end workshare
  !$omp end parallel
  print *, 'tasks', n, sum(hits)
  call omp_set_max_active_levels(2)
  print *, 'levels', omp_get_max_active_levels(), omp_get_level(), omp_get_active_level(), omp_get_ancestor_thread_num(0), &
       omp_get_team_size(0), omp_get_nested(), omp_in_final(), omp_get_thread_limit() > 1000
  print *, 'places', omp_get_num_places(), omp_get_place_num(), omp_get_proc_bind(), omp_get_cancellation(), &
       omp_get_max_task_priority(), omp_get_initial_device(), omp_is_initial_device(), omp_get_num_devices()
  t = omp_get_wtime()
  print *, 'time', t > 0, omp_get_wtick() > 0
  call omp_set_affinity_format('level %L of %N')
  n = omp_get_affinity_format(text)
  print *, 'format', n, text
  n = omp_capture_affinity(text, '%n/%4N')
  print *, 'captured', n, text
end program
