# shellcheck shell=bash
# Prints how many kilobytes of memory are available, also within the limit of the control group.
free_memory() {
  local free limit held
  free=$(awk '/^MemAvailable:/ { print $2 }' /proc/meminfo)
  limit=$(cat /sys/fs/cgroup/memory.max 2>/dev/null)
  held=$(cat /sys/fs/cgroup/memory.current 2>/dev/null)
  if [[ $limit =~ ^[0-9]+$ && $held =~ ^[0-9]+$ ]] && [ $(((limit - held) / 1024)) -lt "$free" ]; then
    free=$(((limit - held) / 1024))
  fi
  echo "$free"
}

# Lets `rt ci` give each processor one check at a time, if there are 4 GB for each. Without that number, rt uses
# estimates of memory, which are so high here that processors stay idle, and the largest crates come last.
use_all_processors() {
  if [ -z "${RT_JOBS:-}" ] && [ "$(free_memory)" -ge $((4000000 * $(nproc))) ]; then
    RT_JOBS=$(nproc)
    export RT_JOBS
  fi
}
