# An image whose program is qaudit-why, from a release that `make dist` packs:
#
#   docker build --build-arg RELEASE=dist/qaudit-0.3.0-x86_64-linux.tar.gz --tag qaudit .
#   docker run --rm --volume "$PWD:/work:ro" qaudit my.trace
#   docker run --rm --volume "$PWD:/work:ro" --entrypoint qlog-to-trace qaudit client.qlog > my.trace
FROM debian:bookworm-slim
RUN apt-get update \
 && apt-get install -y --no-install-recommends libjs-dygraphs python3 zstd \
 && rm -rf /var/lib/apt/lists/*
ARG RELEASE=dist/qaudit-0.3.0-x86_64-linux.tar.gz
COPY ${RELEASE} /tmp/release.tar.gz
RUN mkdir /tmp/release \
 && tar xzf /tmp/release.tar.gz --strip-components 1 -C /tmp/release \
 && (cd /tmp/release && sha256sum --check --quiet SHA256SUMS) \
 && /tmp/release/install /usr/local \
 && rm -rf /tmp/release /tmp/release.tar.gz
USER nobody
WORKDIR /work
ENTRYPOINT ["qaudit-why"]
