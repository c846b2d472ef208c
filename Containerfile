# An image that judges books of a mounted folder. ./package has to have made the Debian package.
#     podman build -t playcheck .
#     podman run --rm --network none -v "$PWD":/books:ro playcheck check site.yml -i hosts.yml
FROM debian:12-slim
COPY dist/packages/playcheck_*_amd64.deb /tmp/playcheck.deb
RUN apt-get update && apt-get install -y --no-install-recommends /tmp/playcheck.deb \
    && rm -rf /tmp/playcheck.deb /var/lib/apt/lists/*
USER nobody
WORKDIR /books
ENTRYPOINT ["playcheck-ansible"]
