<?php
/* Compares what MongoDB's driver for PHP reads from a docd that serves at a port of this machine with what it has written. Prints
 * a line for each wrong result, and how many are right and wrong. `tools/check/drivers.py` runs it.
 *
 *     php tools/check/drivers.php 27017
 *
 * The version of the Stable API makes the driver's first message, and each later check of the server, an OP_MSG. docd accepts
 * nothing else. The heartbeat is short, so that there is a second check.
 */
use MongoDB\Driver\{BulkWrite, Command, Manager, Query, ServerApi};
use MongoDB\Driver\Exception\{BulkWriteException, CommandException};

const NAMESPACE_OF_ITEMS = 'php.items';
const HEARTBEAT = 500; // milliseconds, the least that is allowed
const DUPLICATE_KEY = 11000;
const NAMESPACE_NOT_FOUND = 26;

$right = $wrong = 0;

function same(string $what, mixed $found, mixed $wanted): void {
    global $right, $wrong;
    if ($found === $wanted) {
        $right++;
    } else {
        $wrong++;
        echo "$what: ", json_encode($found), ', and not ', json_encode($wanted), "\n";
    }
}

/* The rows of a cursor, each as an array. */
function rows(MongoDB\Driver\Cursor $cursor): array {
    $cursor->setTypeMap(['root' => 'array', 'document' => 'array', 'array' => 'array']);
    return $cursor->toArray();
}

function found(Manager $manager, array $filter, array $options = []): array {
    return rows($manager->executeQuery(NAMESPACE_OF_ITEMS, new Query($filter, $options)));
}

function asked(Manager $manager, array $command): array {
    return rows($manager->executeCommand('php', new Command($command)));
}

function refusal(string $of, callable $asking): int {
    try {
        $asking();
    } catch (CommandException | BulkWriteException $fault) {
        return $fault->getCode();
    }
    return 0;
}

$heartbeat = HEARTBEAT;
$manager = new Manager("mongodb://127.0.0.1:{$argv[1]}/?heartbeatFrequencyMS=$heartbeat", [], ['serverApi' => new ServerApi('1')]);
same('a ping', asked($manager, ['ping' => 1]), [['ok' => 1]]);

$items = [];
for ($at = 0; $at < 250; $at++) {
    $items[$at] = ['_id' => $at, 'kind' => ['tea', 'soap', 'lamp'][$at % 3], 'pence' => $at * 7 % 100, 'tags' => [$at % 2, 'x']];
}
$write = new BulkWrite();
foreach ($items as $item) {
    $write->insert($item);
}
same('inserts', $manager->executeBulkWrite(NAMESPACE_OF_ITEMS, $write)->getInsertedCount(), 250);
same('a find of all in batches of nine', found($manager, [], ['batchSize' => 9]), array_values($items));
same('a find of all in one batch', found($manager, []), array_values($items));
same('a find by _id', found($manager, ['_id' => 77]), [$items[77]]);
same('a range', found($manager, ['pence' => ['$gte' => 98]], ['sort' => ['pence' => -1]]), [
    $items[57], $items[157], $items[14], $items[114], $items[214],
]);
same('an equality in an array, with a skip and a limit', found($manager, ['tags' => 1, 'kind' => 'tea'], ['skip' => 1, 'limit' => 2]), [
    $items[9], $items[15],
]);
same('a cursor that is left', $manager->executeQuery(NAMESPACE_OF_ITEMS, new Query([], ['batchSize' => 2]))->isDead(), false);

$write = new BulkWrite();
$write->update(['_id' => 3], ['$inc' => ['pence' => 1000], '$push' => ['tags' => 'y']]);
$write->update(['kind' => 'soap'], ['$set' => ['seen' => true]], ['multi' => true]);
$write->update(['_id' => 4], ['kind' => 'other']);
$write->delete(['pence' => ['$lt' => 10]], ['limit' => 0]);
$write->delete(['kind' => 'lamp'], ['limit' => 1]);
$result = $manager->executeBulkWrite(NAMESPACE_OF_ITEMS, $write);
// 83 are soap. Below ten pence are those whose _id ends in one of ten pairs of digits: 20 below 200, and 6 from 200 on.
same('updates that match', $result->getMatchedCount(), 1 + 83 + 1);
same('updates that modify', $result->getModifiedCount(), 1 + 83 + 1);
same('deletes', $result->getDeletedCount(), 26 + 1);
same('an updated document', found($manager, ['_id' => 3]), [['_id' => 3, 'kind' => 'tea', 'pence' => 1021, 'tags' => [1, 'x', 'y']]]);
same('a replaced document', found($manager, ['_id' => 4]), [['_id' => 4, 'kind' => 'other']]);
// Of the 83, nine were below ten pence (1, 43, 58, 100, 115, 172, 187, 229 and 244), and 4 was replaced.
same('documents updated together', count(found($manager, ['seen' => true])), 83 - 9 - 1);

same('a view that is made', asked($manager, ['create' => 'kinds', 'viewOn' => 'items', 'pipeline' => [
    ['$match' => ['_id' => ['$lt' => 10]]], ['$group' => ['_id' => '$kind', 'all' => ['$push' => '$_id']]],
]]), [['ok' => 1]]);
same('the view', rows($manager->executeQuery('php.kinds', new Query([], ['batchSize' => 1]))), [ // 0, 1 and 2 are deleted
    ['_id' => 'lamp', 'all' => [5, 8]], ['_id' => 'other', 'all' => [4]], ['_id' => 'soap', 'all' => [7]],
    ['_id' => 'tea', 'all' => [3, 6, 9]],
]);
same('an aggregate', asked($manager, ['aggregate' => 'items', 'pipeline' => [
    ['$match' => ['_id' => ['$lt' => 10]]], ['$sort' => ['_id' => -1]], ['$project' => ['pence' => 1]],
], 'cursor' => ['batchSize' => 3]]), [
    ['_id' => 9, 'pence' => 63], ['_id' => 8, 'pence' => 56], ['_id' => 7, 'pence' => 49], ['_id' => 6, 'pence' => 42],
    ['_id' => 5, 'pence' => 35], ['_id' => 4], ['_id' => 3, 'pence' => 1021],
]);

same('a duplicate key', refusal('insert', function () use ($manager) {
    $write = new BulkWrite();
    $write->insert(['_id' => 3]);
    $manager->executeBulkWrite(NAMESPACE_OF_ITEMS, $write);
}), DUPLICATE_KEY);
same('a drop of nothing', refusal('drop', fn () => asked($manager, ['drop' => 'nothing'])), NAMESPACE_NOT_FOUND);

usleep(1000 * 2 * HEARTBEAT);
same('a find behind a second look', found($manager, ['_id' => 4]), [['_id' => 4, 'kind' => 'other']]);
echo "$right right, $wrong wrong\n";
exit($wrong ? 1 : 0);
