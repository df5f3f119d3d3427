# Sourced. How many checks the gate makes at once: as many as there are processors, if 3.5 GB of memory are there for each; the dearest was seen to hold 5,
# most under 3. By itself rt plans 6 to 10 GB for each of the larger crates, and leaves cores idle with 24 GB.
fitting=$(($(awk '/^MemTotal/ {print $2}' /proc/meminfo) / 3500000))
wanted=$(nproc)
export RT_JOBS=$((fitting < 1 ? 1 : fitting < wanted ? fitting : wanted))
