/* A scene, read by hand in C: the nearest thing to the limit that gateway_scene is timed against. */
#ifndef SCENE_H
#define SCENE_H

#include "gateway.h"

/* Gives what gateway_scene gives for the same arguments, into a scene that the caller lends. */
void scene_by_hand(const uint8_t *bytes, size_t bytes_len, size_t offset, bool recording,
                   uint64_t *words, size_t words_len, GatewayScene *scene);

#endif
