import robots from "./index.cjs";

export const { Robot, Site, RobotCache, RobotsError, productToken, robotsUrl, responseMeaning, moduleMemory } = robots;
export const { DENY_ALL_FILE, FILE_LIMIT, REDIRECT_LIMIT, LIFETIME } = robots;
