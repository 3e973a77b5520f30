# The programs and the command sdd as an image, for who has the kit: its folder is a second build context.
#
#   docker build --build-context kit="$(dirname "$(rt doc)")" -t sdd1 .
#   docker run --rm -v "$PWD:/files" sdd1 run catalogue.toml workload
#
# It passes the gate (86 minutes on four processors, 8 GB). --build-arg HOW=--unproved builds without the proof, in 10 minutes.
FROM debian:bookworm-slim AS built
RUN apt-get update && apt-get install -y --no-install-recommends gcc git libc6-dev libmimalloc2.0 python3
COPY . /sdd1
ARG HOW=
RUN --mount=type=bind,from=kit,target=/opt/rattle,rw PATH="/opt/rattle/bin:$PATH" /sdd1/tools/install.sh $HOW /installed

FROM debian:bookworm-slim
RUN apt-get update && apt-get install -y --no-install-recommends libmimalloc2.0 python3 && rm -rf /var/lib/apt/lists/*
COPY --from=built /installed /usr/local
WORKDIR /files
ENTRYPOINT ["sdd"]
