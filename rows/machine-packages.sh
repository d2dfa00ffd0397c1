# shellcheck shell=bash disable=SC2154
# Rows of a machine that is made of packages of Debian 12: its idle jobs, how often each job starts in a day, and its scripts.
#
# The crontabs have the packages' lines without comments; the times of apticron and popularity-contest, which are random,
# are made up. Files that commands look at are empty, with the packages' modes. No package enables munin's plugin apt. The
# timers have the events of these packages, of which sysstat has to be enabled, and of those that have no crontab.

# shellcheck source=/dev/null
. "$top/rows/lib/program.sh"

# bin, lib and sbin are links into usr, and systemd is init.
packages_tree='lib>usr/lib sbin>usr/sbin usr/sbin/init>/lib/systemd/systemd usr/bin/mailman>../lib/mailman3/bin/mailman
  etc/passwd=root:x:0:0::/root:/bin/sh\nlist:x:38:38::/var/list:/bin/sh\n etc/anacrontab= etc/munin/plugins/
  etc/cron.hourly/.placeholder etc/cron.daily/.placeholder C/.placeholder'
packages_programs=(usr/lib/systemd/systemd usr/sbin/{anacron,apticron,cron-apt} etc/init.d/anacron usr/bin/certbot
  usr/lib/mailman3/bin/mailman usr/share/mdadm/checkarray usr/share/munin/plugins/apt usr/libexec/ntpsec/rotate-stats
  usr/lib/php/sessionclean usr/lib/sysstat/debian-sa1 etc/cron.monthly/{0anacron,debsums}
  etc/cron.daily/{0anacron,apt-compat,debsums,dpkg,exim4-base,logrotate,man-db,mdadm,popularity-contest,spamassassin,sysstat}
  etc/cron.weekly/{0anacron,debsums,man-db})

cat >"$work/packages.crontabs" <<'TEXT'
# etc/crontab: cron-daemon-common 3.0pl1-162
SHELL=/bin/sh
PATH=/usr/local/sbin:/usr/local/bin:/sbin:/bin:/usr/sbin:/usr/bin
17 *	* * *	root	cd / && run-parts --report /etc/cron.hourly
25 6	* * *	root	test -x /usr/sbin/anacron || { cd / && run-parts --report /etc/cron.daily; }
47 6	* * 7	root	test -x /usr/sbin/anacron || { cd / && run-parts --report /etc/cron.weekly; }
52 6	1 * *	root	test -x /usr/sbin/anacron || { cd / && run-parts --report /etc/cron.monthly; }
# etc/cron.d/anacron: anacron 2.3-36
SHELL=/bin/sh
PATH=/usr/local/sbin:/usr/local/bin:/sbin:/bin:/usr/sbin:/usr/bin
30 7-23 * * *   root	[ -x /etc/init.d/anacron ] && if [ ! -d /run/systemd/system ]; then /usr/sbin/invoke-rc.d anacron start >/dev/null; fi
# etc/cron.d/apticron: apticron 1.2.5+nmu1
37 * * * * root if test -x /usr/sbin/apticron; then /usr/sbin/apticron --cron; else true; fi
# etc/cron.d/certbot: certbot 2.1.0-4
SHELL=/bin/sh
PATH=/usr/local/sbin:/usr/local/bin:/sbin:/bin:/usr/sbin:/usr/bin
0 */12 * * * root test -x /usr/bin/certbot -a \! -d /run/systemd/system && perl -e 'sleep int(rand(43200))' && certbot -q renew --no-random-sleep-on-renew
# etc/cron.d/cron-apt: cron-apt 0.13.0.1
0 4	* * *	root	test -x /usr/sbin/cron-apt && /usr/sbin/cron-apt
# etc/cron.d/e2scrub_all: e2fsprogs 1.47.0-2+b2
30 3 * * 0 root test -e /run/systemd/system || SERVICE_MODE=1 /usr/lib/x86_64-linux-gnu/e2fsprogs/e2scrub_all_cron
10 3 * * * root test -e /run/systemd/system || SERVICE_MODE=1 /sbin/e2scrub_all -A -r
# etc/cron.d/mailman3: mailman3 3.3.8-2~deb12u2
SHELL=/bin/sh
PATH=/usr/local/sbin:/usr/local/bin:/sbin:/bin:/usr/sbin:/usr/bin
0  8 * * *  list	if [ -x /usr/bin/mailman ]; then /usr/bin/mailman notify; fi
0 12 * * *  list	if [ -x /usr/bin/mailman ]; then /usr/bin/mailman digests --periodic; fi
# etc/cron.d/mdadm: mdadm 4.2-5
57 0 * * 0 root if [ -x /usr/share/mdadm/checkarray ] && [ $(date +\%d) -le 7 ]; then /usr/share/mdadm/checkarray --cron --all --idle --quiet; fi
# etc/cron.d/munin-node: munin-node 2.0.73-1
MAILTO=root
*/5 * * * *	root if [ -x /etc/munin/plugins/apt_all ]; then /etc/munin/plugins/apt_all update 7200 12 >/dev/null; elif [ -x /etc/munin/plugins/apt ]; then /etc/munin/plugins/apt update 7200 12 >/dev/null; fi
# etc/cron.d/ntpsec: ntpsec 1.2.2+dfsg1-1+deb12u1
25 6     * * * root if [ ! -d /run/systemd/system ] && [ -x /usr/libexec/ntpsec/rotate-stats ] ; then /usr/libexec/ntpsec/rotate-stats ; fi
# etc/cron.d/php: php-common 2:93
09,39 *     * * *     root   [ -x /usr/lib/php/sessionclean ] && if [ ! -d /run/systemd/system ]; then /usr/lib/php/sessionclean; fi
# etc/cron.d/popularity-contest: popularity-contest 1.76
SHELL=/bin/sh
PATH=/usr/local/sbin:/usr/local/bin:/sbin:/bin:/usr/sbin:/usr/bin
23 14 * * *   root    test -x /etc/cron.daily/popularity-contest && /etc/cron.daily/popularity-contest --crond
# etc/cron.d/sysstat: sysstat 12.6.1-1
PATH=/usr/lib/sysstat:/usr/sbin:/usr/sbin:/usr/bin:/sbin:/bin
5-55/10 * * * * root command -v debian-sa1 > /dev/null && debian-sa1 1 1
59 23 * * * root command -v debian-sa1 > /dev/null && debian-sa1 60 2
TEXT

# The starts on Monday, 2024-01-01: their number, the job, why it is idle, and a timer's event or how the number comes about.
cat >"$work/packages.jobs" <<'ROWS'
24~system:3~/etc/cron.hourly has no scripts~at minute 17
1~system:4~/usr/sbin/anacron is executable~06:25
0~system:5~/usr/sbin/anacron is executable~on Sundays
1~system:6~/usr/sbin/anacron is executable~06:52 on the 1st
17~anacron:3~/run/systemd/system is a directory~7-23
24~apticron:1~~at minute 37
2~certbot:3~/run/systemd/system is a directory~*/12: 0 and 12
1~cron-apt:1~~04:00
0~e2scrub_all:1~/run/systemd/system exists~on Sundays
1~e2scrub_all:2~/run/systemd/system exists~03:10
1~mailman3:3~~08:00
1~mailman3:4~~12:00
0~mdadm:1~~on Sundays, and $( isn't read
288~munin-node:2~/etc/munin/plugins/apt is not executable~*/5: 12 an hour
1~ntpsec:1~/run/systemd/system is a directory~06:25
48~php:1~/run/systemd/system is a directory~09,39: 2 an hour
1~popularity-contest:3~~14:23
144~sysstat:2~~5-55/10: 6 an hour
1~sysstat:3~~23:59
17~anacron.timer~~*-*-* 07..23:30
2~apt-daily.timer~~*-*-* 6,18:00
1~apt-daily-upgrade.timer~~*-*-* 6:00
2~certbot.timer~~*-*-* 00,12:00:00
1~dpkg-db-backup.timer~~daily
0~e2scrub_all.timer~~Sun *-*-* 03:10:00
1~exim4-base.timer~~daily
1~fstrim.timer~~weekly
1~logrotate.timer~~daily
1~man-db.timer~~daily
1~ntpsec-rotate-stats.timer~~*-*-* 06:25:00
48~phpsessionclean.timer~~*-*-* *:09,39:00
144~sysstat-collect.timer~~*:00/10
1~sysstat-summary.timer~~00:07:00
ROWS

# Makes the machine.
packages_make() {
  program_make "$packages_tree ${packages_programs[*]/%/=} $(
    awk -F'~' '$2 ~ /timer$/ { gsub(" ", "\\x20", $4); print "*" $2, "U/" $2 "=[Timer]\\nOnCalendar=" $4 "\\n" }' "$work/packages.jobs"
  )"
  (cd "$machine_folder/root" && umask 022 && chmod 755 -- "${packages_programs[@]}" &&
    awk '/^# / { sub(":", "", $2); path = $2; next } { print >path }' "$work/packages.crontabs")
}

# Compares the starts of a day, $1 in all, and the idle jobs with the table of jobs, in which those that match $2 aren't
# idle, and those that match $3 are missing. The options are the others.
packages_day() {
  program_lines "$(cd "$machine_folder/root/etc" && [ ! -e anacrontab ] || echo anacron)"
  awk -F'~' -v busy="$2" -v gone="$3" -v sum="$1" -v idle="$work/err.wanted" '
    $2 ~ gone { next }
    $3 != "" && $2 !~ busy { sub("^system", "crontab", $2) || sub("^", "cron.d/", $2); print "agenda: idle: root/etc/" $2 ": " $3 >>idle; next }
    $1 { print $1, $2 }
    END { print sum, "in all" }' "$work/packages.jobs" | sort >"$work/out.wanted"
  program_run plan --root root --since 2024-01-01T00:00:00Z --until +24h --utc --text "${@:4}"
  awk -F'\t' 'NR == 1 { print $4, "in all"; next } { starts[$2]++ } END { for (job in starts) print starts[job], job }' "$work/out" |
    sort >"$work/counts" && mv -- "$work/counts" "$work/out"
  program_compare "$1 starts of packages ${*:4}" "$work/out.wanted" "$work/err.wanted" 0
}

# Of cron's 556 starts 383 are idle; those of timers are 221. Only anacron runs scripts.
packages_make
packages_day 777 . '^$' --idle
packages_day 394 '^$' '^$'
program_run scripts --root root --after 2024-01-01T00:00:00Z --utc
program_compare 'scripts of packages' /dev/null "$work/err.wanted" 0

# With the plugin apt of munin 288 more starts have an effect.
ln -s /usr/share/munin/plugins/apt "$machine_folder/root/etc/munin/plugins/apt"
packages_day 682 ^munin-node '^$'

# Without anacron cron runs the scripts: 2 more starts have an effect, and 17 of anacron.timer are missing.
packages_make
rm -- "$machine_folder"/root/{usr/sbin/anacron,etc/{anacrontab,cron.d/anacron,cron.*/0anacron,systemd/system/*/anacron.timer}}
packages_day 743 . ^anacron --idle
packages_day 379 '^system:[456]' ^anacron
printf '%b\n' 'system:4\t2024-01-01T06:25:00Z\t/etc/cron.daily/'{apt-compat,debsums,dpkg,exim4-base,logrotate,man-db,mdadm} \
  'system:4\t2024-01-01T06:25:00Z\t/etc/cron.daily/'{popularity-contest,spamassassin,sysstat} 'system:6\t2024-01-01T06:52:00Z\t/etc/cron.monthly/debsums' \
  'system:5\t2024-01-07T06:47:00Z\t/etc/cron.weekly/'{debsums,man-db} >"$work/out.wanted"
program_run scripts --root root --after 2024-01-01T00:00:00Z --utc
program_compare 'scripts of packages without anacron' "$work/out.wanted" "$work/err.wanted" 0
